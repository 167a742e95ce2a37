//! The host's calls other than taking a message. Each refuses in the order
//! of "What a call returns": 2, 4, 7, 6, 8, 9, 5. A number that the host names
//! has 32 bits, and is the number given: 65,537 is no UID 1, 256 no right 0.

use crate::catalogue::Catalogue;
use crate::refusals::{CallRefusal, Outcome};
use crate::tables::{
    exceeds, smallest_free, Open, Session, Tables, Tree, DENY_NONE, FILE_BYTES, LARGEST_ACCESS,
    LARGEST_FILE, LARGEST_RIGHT, MEMORY_BYTES,
};

/// Refuses unless the condition holds.
pub(crate) fn ensure(condition: bool, refusal: CallRefusal) -> Outcome<()> {
    if condition {
        Ok(())
    } else {
        Err(refusal)
    }
}

/// "number out of range" above the largest.
fn within(value: u32, largest: u8) -> Outcome<u8> {
    let small = u8::try_from(value).ok().filter(|&small| small <= largest);
    small.ok_or(CallRefusal::OutOfRange)
}

/// A UID, TID or FID, where some record could have it.
fn number(value: u32) -> Outcome<u16> {
    u16::try_from(value).map_err(|_| CallRefusal::NoSuch)
}

/// Adds a session; gives its UID.
pub fn add_session(tables: &mut Tables, connection: u32) -> Outcome<u16> {
    ensure(tables.sound(), CallRefusal::NotSound)?;
    ensure(!tables.sessions.is_full(), CallRefusal::Full)?;
    let uid = smallest_free(tables.sessions.in_use().iter().map(|s| s.uid));
    tables.sessions.push(Session { uid, connection });
    Ok(uid)
}

/// Adds a tree; gives its TID.
pub fn add_tree(tables: &mut Tables, uid: u32, right: u32) -> Outcome<u16> {
    ensure(tables.sound(), CallRefusal::NotSound)?;
    let right = within(right, LARGEST_RIGHT)?;
    let uid = number(uid)?;
    ensure(tables.session(uid).is_some(), CallRefusal::NoSuch)?;
    ensure(!tables.trees.is_full(), CallRefusal::Full)?;
    let tid = smallest_free(tables.trees.in_use().iter().map(|t| t.tid));
    tables.trees.push(Tree { tid, uid, right });
    Ok(tid)
}

/// Adds an open; gives its FID. "Opens by the host deny nothing and are not
/// tested."
pub fn add_open(
    tables: &mut Tables,
    uid: u32,
    tid: u32,
    process: u32,
    file: u32,
    access: u32,
) -> Outcome<u16> {
    ensure(tables.sound(), CallRefusal::NotSound)?;
    let file = within(file, LARGEST_FILE)?;
    let access = within(access, LARGEST_ACCESS)?;
    let (uid, tid) = (number(uid)?, number(tid)?);
    // "no such session, or no such tree of that session": a tree's session
    // is there.
    let tree = tables.tree(tid, uid).ok_or(CallRefusal::NoSuch)?;
    ensure(!exceeds(access, tree.right), CallRefusal::ExceedsRight)?;
    ensure(!tables.opens.is_full(), CallRefusal::Full)?;
    Ok(tables.add_open(Open {
        uid,
        tid,
        process,
        file,
        access,
        sharing: DENY_NONE,
        ..Open::default()
    }))
}

/// "A load sets the size and puts zeros after the loaded bytes, up to
/// 4,096." It raises the change number, "an empty one too".
pub fn load_file(
    tables: &mut Tables,
    file: u32,
    contents: &[u8],
    memory: &mut [u8],
) -> Outcome<()> {
    ensure(memory.len() == MEMORY_BYTES, CallRefusal::Room)?;
    ensure(tables.sound(), CallRefusal::NotSound)?;
    let file = within(file, LARGEST_FILE)?;
    ensure(contents.len() <= FILE_BYTES, CallRefusal::OutOfRange)?;
    let has_open = tables.opens.in_use().iter().any(|o| o.file == file);
    ensure(!has_open, CallRefusal::HasOpen)?;
    let bytes = file_bytes_mut(memory, file);
    let (loaded, rest) = bytes.split_at_mut(contents.len());
    loaded.copy_from_slice(contents);
    rest.fill(0);
    let record = &mut tables.files[usize::from(file)];
    record.size = contents.len() as u64;
    record.change();
    Ok(())
}

/// "Has the list changed?" (document 02, request 8), for the open of that FID,
/// whoever's it is: whether its file is unchanged since it read.
pub fn unchanged(tables: &Tables, fid: u32) -> Outcome<bool> {
    ensure(tables.sound(), CallRefusal::NotSound)?;
    let fid = number(fid)?;
    let open = tables.open_of(fid).ok_or(CallRefusal::NoSuch)?;
    Ok(tables.unchanged(open))
}

/// Sets the catalogue whole. "Setting it looks at no open. Order 4, 7."
pub fn set_catalogue(tables: &mut Tables, catalogue: &Catalogue) -> Outcome<()> {
    ensure(tables.sound(), CallRefusal::NotSound)?;
    ensure(catalogue.sound(), CallRefusal::OutOfRange)?;
    tables.catalogue = catalogue.clone();
    Ok(())
}

/// "Dropping an unknown connection is 0 and changes nothing." A known one:
/// each of its sessions goes as by LOGOFF.
pub fn drop_connection(tables: &mut Tables, connection: u32) -> Outcome<()> {
    ensure(tables.sound(), CallRefusal::NotSound)?;
    tables.remove_sessions(|session| session.connection == connection);
    Ok(())
}

/// The host's side of LOGOFF: the session of that UID goes "with what hangs on"
/// it, its trees, their opens and their locks.
pub fn end_session(tables: &mut Tables, uid: u32) -> Outcome<()> {
    let known = |tables: &Tables, uid| tables.session(uid).is_some();
    end(tables, uid, known, Tables::remove_session)
}

/// The host's side of TREE_DISCONNECT, by TID alone: whosever the tree is, it goes
/// with its opens and their locks.
pub fn end_tree(tables: &mut Tables, tid: u32) -> Outcome<()> {
    end(tables, tid, Tables::has_tree, Tables::remove_tree)
}

/// The host's side of CLOSE, by FID alone: whosever the open is, it goes with its
/// locks.
pub fn end_open(tables: &mut Tables, fid: u32) -> Outcome<()> {
    let known = |tables: &Tables, fid| tables.open_of(fid).is_some();
    end(tables, fid, known, Tables::remove_open)
}

/// Removes the record of a number. "No such" is one that no record in use has,
/// behind "tables not sound".
fn end(
    tables: &mut Tables,
    value: u32,
    known: impl Fn(&Tables, u16) -> bool,
    remove: impl Fn(&mut Tables, u16),
) -> Outcome<()> {
    ensure(tables.sound(), CallRefusal::NotSound)?;
    let number = number(value)?;
    ensure(known(tables, number), CallRefusal::NoSuch)?;
    remove(tables, number);
    Ok(())
}

/// The 4,096 bytes of a file.
pub(crate) fn file_bytes_mut(memory: &mut [u8], file: u8) -> &mut [u8] {
    let start = usize::from(file) * FILE_BYTES;
    &mut memory[start..start + FILE_BYTES]
}
