//! The archive's twelve functions, each behind one that lends it Rust's slices. All `unsafe` of this crate is here.
//!
//! A slice goes as its pointer and its length, which Rust keeps true; a `&mut` is lent to us alone, so that nothing overlaps and no other
//! thread is there; the rest are locals of the wrapper. The archive asks for no more (docs/PUBLIC.md: no call has a `requires`), keeps no
//! pointer, and is proved to stay within what it is lent.

/// An operation as the archive takes it: a kind and five numbers.
pub type Words = [u32; 6];

/// The most names of an outlist.
const MOST_NAMES: usize = 512;

/// The names of an outlist as words, unused ones 0.
pub type Names = [u32; MOST_NAMES];

mod c {
    use super::{Names, Words};

    extern "C" {
        pub fn heidrunok_format(
            img: *mut u32,
            words: usize,
            partitions: u32,
            slots: u32,
            log: *mut u8,
            bytes: usize,
            at: usize,
            length: *mut usize,
            extra: *mut usize,
        ) -> u32;
        pub fn heidrunok_commit(
            img: *mut u32,
            words: usize,
            ops: *const Words,
            n: usize,
            log: *mut u8,
            bytes: usize,
            at: usize,
            length: *mut usize,
            extra: *mut usize,
        ) -> u32;
        pub fn heidrunok_open(
            img: *mut u32,
            words: usize,
            log: *mut u8,
            bytes: usize,
            at: usize,
            length: *mut usize,
            extra: *mut usize,
        ) -> u32;
        pub fn heidrunok_trace(
            img: *mut u32,
            words: usize,
            partition: u32,
            log: *mut u8,
            bytes: usize,
            at: usize,
            length: *mut usize,
            extra: *mut usize,
        ) -> u32;
        pub fn heidrunok_close(
            img: *mut u32,
            words: usize,
            log: *mut u8,
            bytes: usize,
            at: usize,
            length: *mut usize,
            traces: *mut u32,
            freed: *mut usize,
            extra: *mut usize,
        ) -> u32;
        pub fn heidrunok_local(
            img: *mut u32,
            words: usize,
            partition: u32,
            log: *mut u8,
            bytes: usize,
            at: usize,
            length: *mut usize,
            freed: *mut usize,
            extra: *mut usize,
        ) -> u32;
        pub fn heidrunok_hold(
            img: *mut u32,
            words: usize,
            handle: u32,
            p: u32,
            s: u32,
            log: *mut u8,
            bytes: usize,
            at: usize,
            length: *mut usize,
            extra: *mut usize,
        ) -> u32;
        pub fn heidrunok_drop(
            img: *mut u32,
            words: usize,
            handle: u32,
            log: *mut u8,
            bytes: usize,
            at: usize,
            length: *mut usize,
            extra: *mut usize,
        ) -> u32;
        pub fn heidrunok_recover(
            img: *mut u32,
            words: usize,
            log: *const u8,
            bytes: usize,
            kept: *mut usize,
            line: *mut usize,
            byte: *mut usize,
        ) -> u32;
        pub fn heidrunok_read(
            img: *const u32,
            words: usize,
            p: u32,
            s: u32,
            payload: *mut u32,
            fields: *mut [u32; 4],
        ) -> u32;
        pub fn heidrunok_ask(img: *const u32, words: usize, p: u32, s: u32, yes: *mut bool) -> u32;
        pub fn heidrunok_outlist(
            img: *const u32,
            words: usize,
            partition: u32,
            held: *mut usize,
            names: *mut Names,
        ) -> u32;
    }
}

/// What a call tells: the paper's number (0 is accepted), the extra answer of a refusal, and a length.
#[derive(Default)]
pub struct Told {
    pub number: u32,
    pub extra: usize,
    pub length: usize,
}

pub fn format(img: &mut [u32], partitions: u32, slots: u32, log: &mut [u8], at: usize) -> Told {
    let mut told = Told::default();
    // SAFETY: two slices lent to us alone, each with its length, and two of our own numbers.
    told.number = unsafe {
        c::heidrunok_format(
            img.as_mut_ptr(),
            img.len(),
            partitions,
            slots,
            log.as_mut_ptr(),
            log.len(),
            at,
            &mut told.length,
            &mut told.extra,
        )
    };
    told
}

pub fn commit(img: &mut [u32], ops: &[Words], log: &mut [u8], at: usize) -> Told {
    let mut told = Told::default();
    // SAFETY: as in `format`, and a third slice that is only read.
    told.number = unsafe {
        c::heidrunok_commit(
            img.as_mut_ptr(),
            img.len(),
            ops.as_ptr(),
            ops.len(),
            log.as_mut_ptr(),
            log.len(),
            at,
            &mut told.length,
            &mut told.extra,
        )
    };
    told
}

pub fn open(img: &mut [u32], log: &mut [u8], at: usize) -> Told {
    let mut told = Told::default();
    // SAFETY: as in `format`.
    told.number = unsafe {
        c::heidrunok_open(
            img.as_mut_ptr(),
            img.len(),
            log.as_mut_ptr(),
            log.len(),
            at,
            &mut told.length,
            &mut told.extra,
        )
    };
    told
}

pub fn trace(img: &mut [u32], partition: u32, log: &mut [u8], at: usize) -> Told {
    let mut told = Told::default();
    // SAFETY: as in `format`.
    told.number = unsafe {
        c::heidrunok_trace(
            img.as_mut_ptr(),
            img.len(),
            partition,
            log.as_mut_ptr(),
            log.len(),
            at,
            &mut told.length,
            &mut told.extra,
        )
    };
    told
}

/// Also the traces counted and the number freed.
pub fn close(img: &mut [u32], log: &mut [u8], at: usize) -> (Told, u32, usize) {
    let (mut told, mut traces, mut freed) = (Told::default(), 0, 0);
    // SAFETY: as in `format`, with four of our own numbers.
    told.number = unsafe {
        c::heidrunok_close(
            img.as_mut_ptr(),
            img.len(),
            log.as_mut_ptr(),
            log.len(),
            at,
            &mut told.length,
            &mut traces,
            &mut freed,
            &mut told.extra,
        )
    };
    (told, traces, freed)
}

/// Also the number freed.
pub fn local(img: &mut [u32], partition: u32, log: &mut [u8], at: usize) -> (Told, usize) {
    let (mut told, mut freed) = (Told::default(), 0);
    // SAFETY: as in `format`, with three of our own numbers.
    told.number = unsafe {
        c::heidrunok_local(
            img.as_mut_ptr(),
            img.len(),
            partition,
            log.as_mut_ptr(),
            log.len(),
            at,
            &mut told.length,
            &mut freed,
            &mut told.extra,
        )
    };
    (told, freed)
}

pub fn hold(img: &mut [u32], handle: u32, p: u32, s: u32, log: &mut [u8], at: usize) -> Told {
    let mut told = Told::default();
    // SAFETY: as in `format`.
    told.number = unsafe {
        c::heidrunok_hold(
            img.as_mut_ptr(),
            img.len(),
            handle,
            p,
            s,
            log.as_mut_ptr(),
            log.len(),
            at,
            &mut told.length,
            &mut told.extra,
        )
    };
    told
}

pub fn drop(img: &mut [u32], handle: u32, log: &mut [u8], at: usize) -> Told {
    let mut told = Told::default();
    // SAFETY: as in `format`.
    told.number = unsafe {
        c::heidrunok_drop(
            img.as_mut_ptr(),
            img.len(),
            handle,
            log.as_mut_ptr(),
            log.len(),
            at,
            &mut told.length,
            &mut told.extra,
        )
    };
    told
}

/// The length is what is kept, the extra answer the line; and the byte within it.
pub fn recover(img: &mut [u32], log: &[u8]) -> (Told, usize) {
    let (mut told, mut byte) = (Told::default(), 0);
    // SAFETY: a slice lent to us alone and one that is only read, each with its length, and three of our own numbers.
    told.number = unsafe {
        c::heidrunok_recover(
            img.as_mut_ptr(),
            img.len(),
            log.as_ptr(),
            log.len(),
            &mut told.length,
            &mut told.extra,
            &mut byte,
        )
    };
    (told, byte)
}

/// The number, the payload and the words of the fields.
pub fn read(img: &[u32], p: u32, s: u32) -> (u32, u32, [u32; 4]) {
    let (mut payload, mut fields) = (0, [0; 4]);
    // SAFETY: a slice that is only read, with its length, and a number and four words of our own.
    let number = unsafe { c::heidrunok_read(img.as_ptr(), img.len(), p, s, &mut payload, &mut fields) };
    (number, payload, fields)
}

/// The number, and whether a root or handle leads to the object.
pub fn ask(img: &[u32], p: u32, s: u32) -> (u32, bool) {
    let mut yes = false;
    // SAFETY: a slice that is only read, with its length, and a bool of our own, to which the archive writes 0 or 1.
    let number = unsafe { c::heidrunok_ask(img.as_ptr(), img.len(), p, s, &mut yes) };
    (number, yes)
}

/// The number, how many names the partition holds, and the names.
pub fn outlist(img: &[u32], partition: u32) -> (u32, usize, Names) {
    let (mut held, mut names) = (0, [0; MOST_NAMES]);
    // SAFETY: a slice that is only read, with its length, and a number and as many words of our own as an outlist has.
    let number = unsafe { c::heidrunok_outlist(img.as_ptr(), img.len(), partition, &mut held, &mut names) };
    (number, held, names)
}
