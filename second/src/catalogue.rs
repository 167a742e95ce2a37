//! The catalogue of names, from request 6 of document 02: "a catalogue, set whole
//! by the host, of up to 16 names of 1 to 12 bytes, each with a file number,
//! compared with ASCII letters caseless".

use crate::tables::{Table, FILES};

pub const NAMES: usize = 16;
pub const LONGEST_NAME: usize = 12;

#[derive(Clone, Copy, Debug, Default, PartialEq, Eq)]
pub struct Name {
    pub length: u8,
    /// The name's bytes; those past its length are free.
    pub text: [u8; LONGEST_NAME],
    pub file: u8,
}

pub type Catalogue = Table<Name, NAMES>;

impl Name {
    /// A name of at most 12 bytes.
    pub fn new(bytes: &[u8], file: u8) -> Name {
        let mut text = [0; LONGEST_NAME];
        text[..bytes.len()].copy_from_slice(bytes);
        Name {
            length: bytes.len() as u8,
            text,
            file,
        }
    }

    /// The name's bytes.
    pub fn bytes(&self) -> &[u8] {
        &self.text[..LONGEST_NAME.min(self.length.into())]
    }

    /// "Names fold A–Z with a–z only."
    pub fn is(&self, name: &[u8]) -> bool {
        self.bytes().eq_ignore_ascii_case(name)
    }

    /// "a name of another length, with a zero byte [...], a file above 15"
    fn sound(&self) -> bool {
        (1..=LONGEST_NAME).contains(&self.length.into())
            && !self.bytes().contains(&0)
            && usize::from(self.file) < FILES
    }
}

impl Catalogue {
    /// The file of that name.
    pub fn file(&self, name: &[u8]) -> Option<u8> {
        let found = self.in_use().iter().find(|known| known.is(name));
        found.map(|known| known.file)
    }

    /// The catalogue's rules: "over 16 names, a name of another length, with a
    /// zero byte or doubled, a file above 15".
    pub fn sound(&self) -> bool {
        let names = self.in_use();
        self.count <= NAMES
            && names.iter().all(Name::sound)
            && (1..names.len()).all(|place| !doubled(&names[..place], &names[place]))
    }
}

/// "'Doubled' is by that comparison."
fn doubled(earlier: &[Name], name: &Name) -> bool {
    earlier.iter().any(|other| other.is(name.bytes()))
}
