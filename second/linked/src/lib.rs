//! The library's functions, as its C header declares them, and memory to lend
//! it.

pub mod guarded;

#[link(name = "gateway", kind = "static")]
extern "C" {
    pub fn gateway_empty(tables: *mut u64);
    pub fn gateway_add_session(tables: *mut u64, connection: u32, uid: *mut u16) -> u8;
    pub fn gateway_add_tree(tables: *mut u64, uid: u32, right: u32, tid: *mut u16) -> u8;
    pub fn gateway_add_open(
        tables: *mut u64,
        uid: u32,
        tid: u32,
        process: u32,
        file: u32,
        access: u32,
        fid: *mut u16,
    ) -> u8;
    pub fn gateway_load_file(
        tables: *mut u64,
        file: u32,
        contents: *const u8,
        contents_length: usize,
        memory: *mut u8,
        memory_length: usize,
    ) -> u8;
    pub fn gateway_set_catalogue(tables: *mut u64, catalogue: *const u64) -> u8;
    pub fn gateway_drop_connection(tables: *mut u64, connection: u32) -> u8;
    pub fn gateway_end_session(tables: *mut u64, uid: u32) -> u8;
    pub fn gateway_end_tree(tables: *mut u64, tid: u32) -> u8;
    pub fn gateway_end_open(tables: *mut u64, fid: u32) -> u8;
    pub fn gateway_unchanged(tables: *const u64, fid: u32, unchanged: *mut u16) -> u8;
    pub fn gateway_take_message(
        tables: *mut u64,
        connection: u32,
        message: *const u8,
        message_length: usize,
        memory: *mut u8,
        memory_length: usize,
        room: *mut u8,
        room_length: usize,
        reply_length: *mut usize,
        holder: *mut u64,
    ) -> u8;
    pub fn gateway_stream_reset(state: *mut u64);
    pub fn gateway_stream_read(
        state: *mut u64,
        buffer: *mut u8,
        piece: *const u8,
        piece_length: usize,
        step: *mut u64,
    ) -> u8;
    pub fn gateway_stream_write(
        message: *const u8,
        message_length: usize,
        room: *mut u8,
        room_length: usize,
        written: *mut usize,
    ) -> u8;
}
