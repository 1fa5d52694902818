//! A verified catalogue for backup retention.
//!
//! Objects (restore points, folders, extent lists) refer to one another across partitions; roots and session handles keep what they lead to;
//! a collector frees what neither leads to. The code behind these calls is written in Rattle and proved: every function meets its contract,
//! never does anything undefined and always returns. This crate is the thin part that is not proved: it lends slices, keeps the place of the
//! next record, and gives numbers their types. It has no `std` and no dependency, and allocates nothing.
//!
//! ```
//! use heidrunok::{words, Catalogue, Name, Operation, Root};
//!
//! let (mut image, mut log) = (vec![0; words(2, 4)], vec![0; 4096]);
//! let mut catalogue = Catalogue::format(&mut image, &mut log, 2, 4)?;
//! let point = Name::new(0, 0);
//! let record = catalogue.commit(&[Operation::New(point, 10), Operation::Root(Root(0), Some(point))])?;
//! assert_eq!(record, b"new\t0\t0\t10\nroot\t0\t0\t0\nend\t2\n"); // append this to the log on disk, and sync
//! assert!(catalogue.ask(point)?);
//! # Ok::<(), heidrunok::Refused>(())
//! ```
#![no_std]
#![deny(missing_docs, unsafe_code)]

#[allow(unsafe_code)]
mod archive;
mod refusal;

use core::fmt;

use archive::{Names, Told, Words};
pub use refusal::{Place, Refusal, Refused};

/// What a call answers.
pub type Result<T> = core::result::Result<T, Refused>;

/// How many words an image of so many partitions (1 to 16) and slots of each (1 to 128) has.
#[must_use]
pub const fn words(partitions: u32, slots: u32) -> usize {
    (partitions as usize).saturating_mul(slots as usize).saturating_mul(7).saturating_add(69)
}

/// How many words to lend to the recovery of a log: as many as its heading asks for. With no heading, or numbers that no edition allows,
/// these are the words of the smallest image. (A first line that recovery refuses by itself, it refuses whatever is lent.)
#[must_use]
pub fn words_for(log: &[u8]) -> usize {
    let heading = log.split(|&b| b == b'\n').next().unwrap_or_default();
    let mut numbers = heading.split(|&b| b == b'\t').skip(2);
    let mut below = |limit| {
        let text = core::str::from_utf8(numbers.next()?).ok()?;
        text.parse().ok().filter(|n| (1..=limit).contains(n))
    };
    match (below(16), below(128)) {
        (Some(partitions), Some(slots)) => words(partitions, slots),
        _ => words(1, 1),
    }
}

/// The most operations of one commit.
pub const MOST_OPERATIONS: usize = 32;

/// A partition's number.
#[derive(Clone, Copy, PartialEq, Eq, PartialOrd, Ord, Hash, Debug)]
pub struct Partition(pub u32);

/// A slot's number within its partition.
#[derive(Clone, Copy, PartialEq, Eq, PartialOrd, Ord, Hash, Debug)]
pub struct Slot(pub u32);

/// A root's number, 0 to 15.
#[derive(Clone, Copy, PartialEq, Eq, PartialOrd, Ord, Hash, Debug)]
pub struct Root(pub u32);

/// A session handle's number, 0 to 31.
#[derive(Clone, Copy, PartialEq, Eq, PartialOrd, Ord, Hash, Debug)]
pub struct Handle(pub u32);

impl Handle {
    /// How many there are.
    pub const LIMIT: u32 = 32;
}

/// A field's number, 0 to 3.
#[derive(Clone, Copy, PartialEq, Eq, PartialOrd, Ord, Hash, Debug)]
pub struct Field(pub u32);

/// The name of an object: one partition and one slot.
#[derive(Clone, Copy, PartialEq, Eq, PartialOrd, Ord, Hash, Debug)]
pub struct Name {
    /// The partition.
    pub partition: Partition,
    /// The slot within it.
    pub slot: Slot,
}

impl Name {
    /// The object in slot `slot` of partition `partition`.
    #[must_use]
    pub const fn new(partition: u32, slot: u32) -> Name {
        Name { partition: Partition(partition), slot: Slot(slot) }
    }

    /// The multiplier of a reference word.
    const RADIX: u32 = 128;

    /// The name of a reference word, `RADIX` p + s + 1; 0 is nothing.
    fn of(word: u32) -> Option<Name> {
        let k = word.checked_sub(1)?;
        Some(Name::new(k / Name::RADIX, k % Name::RADIX))
    }
}

/// Partition, dot, slot.
impl fmt::Display for Name {
    fn fmt(&self, f: &mut fmt::Formatter<'_>) -> fmt::Result {
        write!(f, "{}.{}", self.partition.0, self.slot.0)
    }
}

/// One operation of a commit. Numbers too large are refused, not wrapped.
#[derive(Clone, Copy, PartialEq, Eq, Hash, Debug)]
pub enum Operation {
    /// An object with a payload comes into being, its four fields nothing.
    New(Name, u32),
    /// A field of an object refers to another, or to nothing.
    Set(Name, Field, Option<Name>),
    /// An object's payload becomes this.
    Val(Name, u32),
    /// A root names an object, or nothing.
    Root(Root, Option<Name>),
}

impl Operation {
    fn words(self) -> Words {
        let pair = |n: Name| (n.partition.0, n.slot.0);
        match self {
            Operation::New(n, v) => [1, pair(n).0, pair(n).1, v, 0, 0],
            Operation::Set(n, f, Some(t)) => [2, pair(n).0, pair(n).1, f.0, pair(t).0, pair(t).1],
            Operation::Set(n, f, None) => [3, pair(n).0, pair(n).1, f.0, 0, 0],
            Operation::Val(n, v) => [4, pair(n).0, pair(n).1, v, 0, 0],
            Operation::Root(r, Some(t)) => [5, r.0, pair(t).0, pair(t).1, 0, 0],
            Operation::Root(r, None) => [6, r.0, 0, 0, 0, 0],
        }
    }
}

/// An object as it is read.
#[derive(Clone, Copy, PartialEq, Eq, Hash, Debug)]
pub struct Object {
    /// Its payload.
    pub payload: u32,
    /// What its four fields refer to.
    pub fields: [Option<Name>; 4],
}

/// What a close answers.
#[derive(Clone, Copy, PartialEq, Eq, Hash, Debug)]
pub struct Closed<'c> {
    /// The record to append to the log on disk.
    pub record: &'c [u8],
    /// The traces of the phase.
    pub traces: u32,
    /// How many objects were freed.
    pub freed: usize,
}

/// What a local collection answers.
#[derive(Clone, Copy, PartialEq, Eq, Hash, Debug)]
pub struct Freed<'c> {
    /// The record to append to the log on disk.
    pub record: &'c [u8],
    /// How many objects were freed.
    pub freed: usize,
}

/// The objects of other partitions that fields of a partition's objects name, at most 512 of them.
#[derive(Clone, Copy, PartialEq, Eq, Hash, Debug)]
pub struct Outlist {
    held: usize,
    words: Names,
}

impl Outlist {
    /// How many names there are.
    #[must_use]
    pub fn len(&self) -> usize {
        self.held
    }

    /// Whether there is none.
    #[must_use]
    pub fn is_empty(&self) -> bool {
        self.held == 0
    }

    /// The names, in order and each once.
    pub fn names(&self) -> impl Iterator<Item = Name> + '_ {
        self.words.iter().filter_map(|&w| Name::of(w))
    }
}

/// A catalogue over a lent image and a lent log buffer.
///
/// It keeps the place of the next record. Each accepted call that is logged answers its record, the bytes to append to the log on disk. If
/// they can't be stored, drop the catalogue and recover from what the disk has.
#[derive(Debug)]
pub struct Catalogue<'a> {
    image: &'a mut [u32],
    log: &'a mut [u8],
    end: usize,
}

impl<'a> Catalogue<'a> {
    /// A blank heap of so many partitions and slots of each; its heading starts the log.
    ///
    /// # Errors
    /// `Size` where the numbers are out of range or `image` is not [`words`] long, `Room` where the heading does not fit.
    pub fn format(image: &'a mut [u32], log: &'a mut [u8], partitions: u32, slots: u32) -> Result<Self> {
        let told = archive::format(image, partitions, slots, log, 0);
        accept(told.number, Place::Call)?;
        let end = told.length;
        Ok(Catalogue { image, log, end })
    }

    /// The heap after the last complete record of the first `written` bytes of `log`. [`Catalogue::log`] is then what is kept: cut the log on
    /// disk there, and go on. The image wants as many words as [`words_for`] says.
    ///
    /// # Errors
    /// The refusal with its line and byte: `image` is then all zeros. Also `Room` where `log` has fewer than `written` bytes.
    pub fn recover(image: &'a mut [u32], log: &'a mut [u8], written: usize) -> Result<Self> {
        let Some(bytes) = log.get(..written) else {
            return Err(Refused { refusal: Refusal::Room, place: Place::Call });
        };
        let (told, byte) = archive::recover(image, bytes);
        accept(told.number, Place::Line { line: told.extra, byte })?;
        let end = told.length;
        Ok(Catalogue { image, log, end })
    }

    /// The log so far: the heading and every record.
    #[must_use]
    pub fn log(&self) -> &[u8] {
        &self.log[..self.end]
    }

    /// The image's words.
    #[must_use]
    pub fn image(&self) -> &[u32] {
        self.image
    }

    /// How many partitions there are.
    #[must_use]
    pub fn partitions(&self) -> u32 {
        self.image[0]
    }

    /// How many slots each partition has.
    #[must_use]
    pub fn slots(&self) -> u32 {
        self.image[1]
    }

    /// Whether a phase is open.
    #[must_use]
    pub fn phase_is_open(&self) -> bool {
        self.image[2] != 0
    }

    /// One transaction of 1 to 32 operations, all or none.
    ///
    /// # Errors
    /// `Count`; `Range`, `Taken`, `Absent` with the operation's position; `Room`.
    pub fn commit(&mut self, operations: &[Operation]) -> Result<&[u8]> {
        // One more than is taken, so that too many are refused as such.
        let mut words = [Words::default(); MOST_OPERATIONS + 1];
        for (w, o) in words.iter_mut().zip(operations) {
            *w = o.words();
        }
        let count = operations.len().min(words.len());
        let told = archive::commit(self.image, &words[..count], self.log, self.end);
        let place = match told.extra {
            0 => Place::Call,
            position => Place::Operation(position),
        };
        self.logged(&told, place)
    }

    /// Opens a phase of the collector.
    ///
    /// # Errors
    /// `Opened`, `Rootless`, `Room`.
    pub fn open(&mut self) -> Result<&[u8]> {
        let told = archive::open(self.image, self.log, self.end);
        self.logged(&told, Place::Call)
    }

    /// Traces one partition.
    ///
    /// # Errors
    /// `Shut`, `Range`, `Clean`, `Room`.
    pub fn trace(&mut self, partition: Partition) -> Result<&[u8]> {
        let told = archive::trace(self.image, partition.0, self.log, self.end);
        self.logged(&told, Place::Call)
    }

    /// Closes the phase, and frees every object that is not marked.
    ///
    /// # Errors
    /// `Shut`, `Rootless`, `Unclean` with the lowest partition that is not clean, `Room`.
    pub fn close(&mut self) -> Result<Closed<'_>> {
        let (told, traces, freed) = archive::close(self.image, self.log, self.end);
        let place = match u32::try_from(told.extra) {
            Ok(lowest) if told.number == Refusal::Unclean.number() => Place::Partition(Partition(lowest)),
            _ => Place::Call,
        };
        let record = self.logged(&told, place)?;
        Ok(Closed { record, traces, freed })
    }

    /// Frees the objects of one partition that neither a root or handle, nor a field of an object in another partition, nor a chain inside
    /// the partition from either of these leads to. A phase may be open or shut.
    ///
    /// # Errors
    /// `Range`, `Rootless`, `Room`.
    pub fn local(&mut self, partition: Partition) -> Result<Freed<'_>> {
        let (told, freed) = archive::local(self.image, partition.0, self.log, self.end);
        let record = self.logged(&told, Place::Call)?;
        Ok(Freed { record, freed })
    }

    /// A session's handle takes an object, whatever it held before: that object, and all that it leads to, is freed by no close and no
    /// local collection until the handle is dropped or takes another. A phase may be open or shut.
    ///
    /// # Errors
    /// `Range`, `Absent`, `Room`.
    pub fn hold(&mut self, handle: Handle, name: Name) -> Result<&[u8]> {
        let told = archive::hold(self.image, handle.0, name.partition.0, name.slot.0, self.log, self.end);
        self.logged(&told, Place::Call)
    }

    /// A session's handle holds nothing from now on, also where it held nothing before. It frees nothing itself; the next close, or local
    /// collection of its partition, may. (The name is the log's, as every call's; it ends no value as Rust's own `drop` does.)
    ///
    /// # Errors
    /// `Range`, `Room`.
    pub fn drop(&mut self, handle: Handle) -> Result<&[u8]> {
        let told = archive::drop(self.image, handle.0, self.log, self.end);
        self.logged(&told, Place::Call)
    }

    /// An object's payload and fields.
    ///
    /// # Errors
    /// `Range`, `Absent`.
    pub fn read(&self, name: Name) -> Result<Object> {
        let (number, payload, fields) = archive::read(self.image, name.partition.0, name.slot.0);
        accept(number, Place::Call)?;
        Ok(Object { payload, fields: fields.map(Name::of) })
    }

    /// Whether a root or handle leads to an object.
    ///
    /// # Errors
    /// `Range`, `Absent`.
    pub fn ask(&self, name: Name) -> Result<bool> {
        let (number, yes) = archive::ask(self.image, name.partition.0, name.slot.0);
        accept(number, Place::Call)?;
        Ok(yes)
    }

    /// The objects of other partitions that fields of this one's objects name.
    ///
    /// # Errors
    /// `Range`.
    pub fn outlist(&self, partition: Partition) -> Result<Outlist> {
        let (number, held, words) = archive::outlist(self.image, partition.0);
        accept(number, Place::Call)?;
        Ok(Outlist { held, words })
    }

    /// Every object in use, in partition then slot order.
    pub fn objects(&self) -> impl Iterator<Item = (Name, Object)> + '_ {
        (0..self.partitions())
            .flat_map(|p| (0..self.slots()).map(move |s| Name::new(p, s)))
            .filter_map(|n| Some((n, self.read(n).ok()?)))
    }

    /// The record of an accepted call, which the log now ends with.
    fn logged(&mut self, told: &Told, place: Place) -> Result<&[u8]> {
        accept(told.number, place)?;
        let at = self.end;
        self.end += told.length;
        Ok(&self.log[at..self.end])
    }
}

/// Number 0 is accepted.
fn accept(number: u32, place: Place) -> Result<()> {
    if number == 0 {
        return Ok(());
    }
    Err(Refused { refusal: Refusal::of(number), place })
}
