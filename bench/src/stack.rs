//! How much stack a call uses: it is made on a thread whose stack was filled
//! with a pattern, and the deepest byte that no longer has it is looked for.

use linked::guarded::Guarded;
use std::ffi::c_void;

extern "C" {
    fn pthread_attr_init(attributes: *mut Attributes) -> i32;
    fn pthread_attr_setstack(attributes: *mut Attributes, start: *mut c_void, size: usize) -> i32;
    fn pthread_attr_destroy(attributes: *mut Attributes) -> i32;
    fn pthread_create(
        thread: *mut usize,
        attributes: *const Attributes,
        start: extern "C" fn(*mut c_void) -> *mut c_void,
        argument: *mut c_void,
    ) -> i32;
    fn pthread_join(thread: usize, result: *mut *mut c_void) -> i32;
}

/// Room for a `pthread_attr_t`, which has 56 bytes on x86-64.
#[repr(C)]
struct Attributes([u64; 16]);

const SIZE: usize = 16 << 20;
const PATTERN: u64 = 0xA5C3_96E1_5A3C_691E;

/// A stack between two pages that can't be touched.
pub struct Stack {
    room: Guarded,
}

/// What the thread does, and where its stack stood when it began to.
struct Job<'a> {
    call: &'a mut dyn FnMut(),
    entry: usize,
}

extern "C" fn start(job: *mut c_void) -> *mut c_void {
    // SAFETY: `used` hands over a job that it alone holds until the join.
    let job = unsafe { &mut *job.cast::<Job>() };
    let here = 0u64;
    job.entry = std::hint::black_box(&here) as *const u64 as usize;
    (job.call)();
    std::ptr::null_mut()
}

impl Stack {
    pub fn new() -> Stack {
        Stack {
            room: Guarded::new(SIZE),
        }
    }

    fn start(&self) -> *mut u64 {
        self.room.start().cast()
    }

    /// Bytes of stack that the call uses. It is made once before, so that
    /// what is done only on a first call is not counted.
    pub fn used(&mut self, call: &mut dyn FnMut()) -> usize {
        call();
        // SAFETY: the mapping has SIZE bytes, and no thread runs on it now.
        let words = unsafe { std::slice::from_raw_parts_mut(self.start(), SIZE / 8) };
        words.fill(PATTERN);
        let entry = self.run(call);
        // SAFETY: the thread has ended.
        let words = unsafe { std::slice::from_raw_parts(self.start(), SIZE / 8) };
        let untouched = words.iter().take_while(|word| **word == PATTERN).count();
        entry - (self.start() as usize + 8 * untouched)
    }

    fn run(&mut self, call: &mut dyn FnMut()) -> usize {
        let mut job = Job { call, entry: 0 };
        let mut attributes = Attributes([0; 16]);
        let mut thread = 0;
        // SAFETY: the stack, the job and the attributes outlive the thread, which is
        // waited for here.
        unsafe {
            assert_eq!(pthread_attr_init(&mut attributes), 0);
            let stack = self.start().cast();
            assert_eq!(pthread_attr_setstack(&mut attributes, stack, SIZE), 0);
            let argument = (&raw mut job).cast();
            let made = pthread_create(&mut thread, &attributes, start, argument);
            assert_eq!(made, 0, "pthread_create");
            assert_eq!(pthread_join(thread, std::ptr::null_mut()), 0);
            pthread_attr_destroy(&mut attributes);
        }
        job.entry
    }
}
