//! What is written: a book out of sections, and a layer into a record. All its bytes are there before the first is put where it is lent, so
//! a refusal has nothing to take back.
use super::book::own_length;
use super::section::{Layer, Section};

/// `fw_written`, as the header lays it out.
#[repr(C)]
#[derive(Debug, Clone, Copy, PartialEq, Eq)]
pub struct Written {
    pub refusal: u32,
    pub len: u32,
}

impl Written {
    /// Puts the bytes, where they are not refused, at the start of those that are lent: 19 where these or 65,536 don't hold them.
    pub fn of(bytes: Result<Vec<u8>, u32>, lent: &mut [u8]) -> Written {
        let room = lent.len().min(65_536);
        let put = bytes.and_then(|bytes| {
            let start = lent[..room].get_mut(..bytes.len()).ok_or(19u32)?;
            start.copy_from_slice(&bytes);
            Ok(bytes.len() as u32)
        });
        match put {
            Ok(len) => Written { refusal: 0, len },
            Err(refusal) => Written { refusal, len: 0 },
        }
    }
}

/// A book by its parts, as they are written: a fault puts one of them wrong and leaves the rest.
#[derive(Debug, Clone)]
pub struct Parts {
    pub records: Vec<Vec<u8>>,
    pub index: Vec<u32>,
    pub place: u32,
    pub n: u32,
    pub length: u32,
    pub letters: [u8; 4],
}

impl Parts {
    /// A book of these records; a good one where each is as long as its layer count and its flange height say.
    pub fn of(records: Vec<Vec<u8>>) -> Parts {
        let mut parts = Parts {
            records,
            index: vec![],
            place: 0,
            n: 0,
            length: 0,
            letters: *b"BOOK",
        };
        parts.settle();
        parts
    }

    /// Makes the index and the last 16 bytes right for the records' lengths.
    pub fn settle(&mut self) {
        self.place = 0;
        self.index.clear();
        for record in &self.records {
            self.index.push(self.place);
            self.place += record.len() as u32;
        }
        self.n = self.index.len() as u32;
        self.length = self.place + 4 * self.n + 16;
    }

    pub fn bytes(&self) -> Vec<u8> {
        let words = [self.place, self.n, self.length];
        let mut bytes = self.records.concat();
        bytes.extend(self.index.iter().flat_map(|at| at.to_le_bytes()));
        bytes.extend(words.into_iter().flat_map(u32::to_le_bytes));
        bytes.extend(self.letters);
        bytes
    }
}

/// The records of a string, each as long as its own layer count and flange height say. What is left over and is no whole record comes
/// last: it is not of its length, and so a bad one.
pub fn records(string: &[u8]) -> Vec<&[u8]> {
    let (mut records, mut rest) = (vec![], string);
    while !rest.is_empty() {
        let len = own_length(rest) as usize;
        let (record, after) = rest.split_at(len.min(rest.len()));
        records.push(record);
        rest = after;
    }
    records
}

/// The book of a string's sections, or the refusal of the first that is bad.
pub fn book_of(string: &[u8]) -> Result<Parts, u32> {
    let sections = records(string).into_iter().map(Section::of);
    let written = sections.map(|section| Ok(section?.as_written().record()));
    written.collect::<Result<_, u32>>().map(Parts::of)
}

/// What `fw_write_book` answers and writes.
pub fn write_book(string: &[u8], book: &mut [u8]) -> Written {
    Written::of(book_of(string).map(|parts| parts.bytes()), book)
}

/// What `fw_add_layer` answers and writes.
pub fn add_layer(record: &[u8], layer: Layer, out: &mut [u8]) -> Written {
    let section = Section::read(record).ok_or(6);
    let added = section.and_then(|section| section.with_layer(layer).ok_or(12));
    Written::of(added.map(|section| section.record()), out)
}
