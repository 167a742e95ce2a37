//! Plans the question whether a file is unchanged (document 02, request 8).

use super::{Planner, Scene};
use crate::call::Trial;
use second::builder::{core_write, Ask, Header};
use second::call::Call;
use second::tables::{Open, Tables, ACCESS_READ};

impl Planner {
    /// Mostly of a FID that the last message named or the last open got, or of an
    /// open of the same file that has read.
    pub(super) fn question(&mut self, tables: &Tables) -> Trial {
        let opens = tables.opens.in_use();
        let named = opens.iter().filter(|open| self.named.contains(&open.fid));
        let files: Vec<u8> = named.map(|open| open.file).collect();
        let beside = |open: &&Open| open.read && files.contains(&open.file);
        let readers: Vec<Open> = opens.iter().filter(beside).copied().collect();
        let fid = match self.rng.below(10) {
            0..=3 if !self.named.is_empty() => self.rng.pick(&self.named),
            4..=7 if !readers.is_empty() => self.rng.pick(&readers).fid,
            0..=8 if !opens.is_empty() => self.rng.pick(opens).fid,
            _ => self.any_number(),
        };
        let fid = u32::from(fid);
        Trial::plain(Call::Unchanged {
            fid: match self.once_in(12) {
                true => fid + 0x1_0000,
                false => self.seldom_wide(fid),
            },
        })
    }

    /// A write that is granted and changes nothing, through an open whose file is
    /// unchanged: of length 0, or a size that the file has.
    pub(super) fn idle_write(&mut self, tables: &Tables) -> Option<(Scene, Ask)> {
        let opens = tables.opens.in_use().iter();
        let idle = |open: &&Open| tables.unchanged(open) && open.access != ACCESS_READ;
        let idle: Vec<Open> = opens.filter(idle).copied().collect();
        if idle.is_empty() {
            return None;
        }
        let open = self.rng.pick(&idle);
        let size = tables.files[usize::from(open.file)].size;
        let write = Ask::Write {
            fid: open.fid,
            offset: self.rng.below(5000) as u64,
            data: Vec::new(),
            long: self.once_in(2),
            around: (0, 0),
        };
        let scene = Scene {
            connection: tables.session(open.uid)?.connection,
            header: Header {
                tid: open.tid,
                pid: open.process,
                uid: open.uid,
            },
            fids: vec![open.fid],
        };
        match self.once_in(3) {
            true => Some((scene, write)),
            false => Some((scene, core_write(open.fid, size as u32, &[]))),
        }
    }

    /// Keeps the FIDs that a message names or that its OPEN_ANDX will get, for the
    /// questions behind it, and the file that it closes.
    pub(super) fn note_named(&mut self, asks: &[Ask], tables: &Tables) {
        self.named = asks.iter().filter_map(Ask::fid).take(4).collect();
        if let [Ask::Open { .. }, ..] = asks {
            self.named.push(tables.next_fid());
        }
        self.closed = match asks.last() {
            Some(Ask::Close { fid }) => tables.open_of(*fid).map(|open| open.file),
            _ => None,
        };
    }

    /// The same for the host's open.
    pub(super) fn note_open(&mut self, tables: &Tables) {
        self.named = vec![tables.next_fid()];
    }

    /// Makes a WRITE now and then the one before it once more: the bytes that it
    /// finds are those that it puts.
    pub(super) fn seldom_again(&mut self, ask: &mut Ask, before: &Ask) {
        if let (Ask::Write { .. }, Ask::Write { .. }) = (&ask, before) {
            if self.once_in(8) {
                *ask = before.clone();
            }
        }
    }
}
