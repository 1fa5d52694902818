//! What is timed: ordinary Rust, the proved archive as it is now, and (with --cfg before) the archive of an earlier commit, whose functions
//! are renamed. All through one trait, so that none of them is inlined.
use crate::catalogue::{self, Chain, Closed, Fault, Freed, Name, Object, Operation, Outlist, Refusal, Start, NAMES, RADIX};

/// A transaction as Rust takes it, and as the archive does: six words an operation.
pub struct Transaction {
    pub ops: Vec<Operation>,
    words: Vec<[u32; 6]>,
}

impl Transaction {
    pub fn new(ops: Vec<Operation>) -> Self {
        let words = ops.iter().map(|&o| words_of(o)).collect();
        Transaction { ops, words }
    }
}

fn words_of(o: Operation) -> [u32; 6] {
    match o {
        Operation::New(n, v) => [1, n.partition, n.slot, v, 0, 0],
        Operation::Set(n, k, Some(t)) => [2, n.partition, n.slot, k, t.partition, t.slot],
        Operation::Set(n, k, None) => [3, n.partition, n.slot, k, 0, 0],
        Operation::Val(n, v) => [4, n.partition, n.slot, v, 0, 0],
        Operation::Root(r, Some(t)) => [5, r, t.partition, t.slot, 0, 0],
        Operation::Root(r, None) => [6, r, 0, 0, 0, 0],
    }
}

pub trait Side {
    fn name(&self) -> &'static str;
    /// The multiplier of its reference words, which is the largest S too.
    fn radix(&self) -> u32 {
        RADIX
    }
    /// Whether it has `why`.
    fn explains(&self) -> bool {
        true
    }
    fn format(&self, img: &mut [u32], p: u32, s: u32, log: &mut [u8], at: usize) -> Result<usize, Refusal>;
    fn commit(&self, img: &mut [u32], t: &Transaction, log: &mut [u8], at: usize) -> Result<usize, Refusal>;
    fn open(&self, img: &mut [u32], log: &mut [u8], at: usize) -> Result<usize, Refusal>;
    fn trace(&self, img: &mut [u32], t: u32, log: &mut [u8], at: usize) -> Result<usize, Refusal>;
    fn close(&self, img: &mut [u32], log: &mut [u8], at: usize) -> Result<Closed, Refusal>;
    fn local(&self, img: &mut [u32], t: u32, log: &mut [u8], at: usize) -> Result<Freed, Refusal>;
    fn hold(&self, img: &mut [u32], h: u32, n: Name, log: &mut [u8], at: usize) -> Result<usize, Refusal>;
    fn drop(&self, img: &mut [u32], h: u32, log: &mut [u8], at: usize) -> Result<usize, Refusal>;
    fn recover(&self, img: &mut [u32], log: &[u8]) -> Result<usize, Fault>;
    fn read(&self, img: &[u32], n: Name) -> Result<Object, Refusal>;
    fn ask(&self, img: &[u32], n: Name) -> Result<bool, Refusal>;
    fn outlist(&self, img: &[u32], t: u32) -> Result<Outlist, Refusal>;
    fn why(&self, img: &[u32], n: Name, words: &mut [u32]) -> Result<Chain, Refusal>;
}

pub struct Rust;

impl Side for Rust {
    fn name(&self) -> &'static str {
        "Rust"
    }
    fn format(&self, img: &mut [u32], p: u32, s: u32, log: &mut [u8], at: usize) -> Result<usize, Refusal> {
        catalogue::format(img, p, s, log, at)
    }
    fn commit(&self, img: &mut [u32], t: &Transaction, log: &mut [u8], at: usize) -> Result<usize, Refusal> {
        catalogue::commit(img, &t.ops, log, at)
    }
    fn open(&self, img: &mut [u32], log: &mut [u8], at: usize) -> Result<usize, Refusal> {
        catalogue::open(img, log, at)
    }
    fn trace(&self, img: &mut [u32], t: u32, log: &mut [u8], at: usize) -> Result<usize, Refusal> {
        catalogue::trace(img, t, log, at)
    }
    fn close(&self, img: &mut [u32], log: &mut [u8], at: usize) -> Result<Closed, Refusal> {
        catalogue::close(img, log, at)
    }
    fn local(&self, img: &mut [u32], t: u32, log: &mut [u8], at: usize) -> Result<Freed, Refusal> {
        catalogue::local(img, t, log, at)
    }
    fn hold(&self, img: &mut [u32], h: u32, n: Name, log: &mut [u8], at: usize) -> Result<usize, Refusal> {
        catalogue::hold(img, h, n, log, at)
    }
    fn drop(&self, img: &mut [u32], h: u32, log: &mut [u8], at: usize) -> Result<usize, Refusal> {
        catalogue::drop(img, h, log, at)
    }
    fn recover(&self, img: &mut [u32], log: &[u8]) -> Result<usize, Fault> {
        catalogue::recover(img, log)
    }
    fn read(&self, img: &[u32], n: Name) -> Result<Object, Refusal> {
        catalogue::read(img, n)
    }
    fn ask(&self, img: &[u32], n: Name) -> Result<bool, Refusal> {
        catalogue::ask(img, n)
    }
    fn outlist(&self, img: &[u32], t: u32) -> Result<Outlist, Refusal> {
        catalogue::outlist(img, t)
    }
    fn why(&self, img: &[u32], n: Name, words: &mut [u32]) -> Result<Chain, Refusal> {
        catalogue::why(img, n, words)
    }
}

type Words = *mut u32;
type Bytes = *mut u8;
type Out<T> = *mut T;
type Why = unsafe extern "C" fn(*const u32, usize, u32, u32, Words, usize, Out<bool>, Out<u32>, Out<usize>) -> u32;

/// The functions of an archive, as bindings/c/heidrunok.h has them. Up to W6 there was no `why`.
pub struct Archive {
    name: &'static str,
    radix: u32,
    format: unsafe extern "C" fn(Words, usize, u32, u32, Bytes, usize, usize, Out<usize>, Out<usize>) -> u32,
    commit: unsafe extern "C" fn(Words, usize, *const [u32; 6], usize, Bytes, usize, usize, Out<usize>, Out<usize>) -> u32,
    open: unsafe extern "C" fn(Words, usize, Bytes, usize, usize, Out<usize>, Out<usize>) -> u32,
    trace: unsafe extern "C" fn(Words, usize, u32, Bytes, usize, usize, Out<usize>, Out<usize>) -> u32,
    close: unsafe extern "C" fn(Words, usize, Bytes, usize, usize, Out<usize>, Out<u32>, Out<usize>, Out<usize>) -> u32,
    local: unsafe extern "C" fn(Words, usize, u32, Bytes, usize, usize, Out<usize>, Out<usize>, Out<usize>) -> u32,
    hold: unsafe extern "C" fn(Words, usize, u32, u32, u32, Bytes, usize, usize, Out<usize>, Out<usize>) -> u32,
    drop: unsafe extern "C" fn(Words, usize, u32, Bytes, usize, usize, Out<usize>, Out<usize>) -> u32,
    recover: unsafe extern "C" fn(Words, usize, *const u8, usize, Out<usize>, Out<usize>, Out<usize>) -> u32,
    read: unsafe extern "C" fn(*const u32, usize, u32, u32, Out<u32>, Out<[u32; 4]>) -> u32,
    ask: unsafe extern "C" fn(*const u32, usize, u32, u32, Out<bool>) -> u32,
    outlist: unsafe extern "C" fn(*const u32, usize, u32, Out<usize>, Out<[u32; NAMES]>) -> u32,
    why: Option<Why>,
}

macro_rules! archive {
    ($name:literal, $format:ident $commit:ident $open:ident $trace:ident $close:ident $local:ident $hold:ident $drop:ident $recover:ident
     $read:ident $ask:ident $outlist:ident, $why:expr) => {{
        extern "C" {
            fn $format(i: Words, w: usize, p: u32, s: u32, l: Bytes, b: usize, at: usize, n: Out<usize>, x: Out<usize>) -> u32;
            fn $commit(
                i: Words,
                w: usize,
                o: *const [u32; 6],
                k: usize,
                l: Bytes,
                b: usize,
                at: usize,
                n: Out<usize>,
                x: Out<usize>,
            ) -> u32;
            fn $open(i: Words, w: usize, l: Bytes, b: usize, at: usize, n: Out<usize>, x: Out<usize>) -> u32;
            fn $trace(i: Words, w: usize, t: u32, l: Bytes, b: usize, at: usize, n: Out<usize>, x: Out<usize>) -> u32;
            fn $close(i: Words, w: usize, l: Bytes, b: usize, at: usize, n: Out<usize>, c: Out<u32>, f: Out<usize>, x: Out<usize>) -> u32;
            fn $local(i: Words, w: usize, t: u32, l: Bytes, b: usize, at: usize, n: Out<usize>, f: Out<usize>, x: Out<usize>) -> u32;
            fn $hold(i: Words, w: usize, h: u32, p: u32, s: u32, l: Bytes, b: usize, at: usize, n: Out<usize>, x: Out<usize>) -> u32;
            fn $drop(i: Words, w: usize, h: u32, l: Bytes, b: usize, at: usize, n: Out<usize>, x: Out<usize>) -> u32;
            fn $recover(i: Words, w: usize, l: *const u8, b: usize, n: Out<usize>, x: Out<usize>, y: Out<usize>) -> u32;
            fn $read(i: *const u32, w: usize, p: u32, s: u32, v: Out<u32>, f: Out<[u32; 4]>) -> u32;
            fn $ask(i: *const u32, w: usize, p: u32, s: u32, y: Out<bool>) -> u32;
            fn $outlist(i: *const u32, w: usize, t: u32, h: Out<usize>, n: Out<[u32; NAMES]>) -> u32;
        }
        Archive {
            name: $name,
            radix: RADIX,
            format: $format,
            commit: $commit,
            open: $open,
            trace: $trace,
            close: $close,
            local: $local,
            hold: $hold,
            drop: $drop,
            recover: $recover,
            read: $read,
            ask: $ask,
            outlist: $outlist,
            why: $why,
        }
    }};
}

macro_rules! why {
    ($why:ident) => {{
        extern "C" {
            fn $why(i: *const u32, w: usize, p: u32, s: u32, l: Words, k: usize, h: Out<bool>, b: Out<u32>, n: Out<usize>) -> u32;
        }
        Some($why as Why)
    }};
}

const NOW: Archive = archive!(
    "now",
    heidrunok_format heidrunok_commit heidrunok_open heidrunok_trace heidrunok_close heidrunok_local
    heidrunok_hold heidrunok_drop heidrunok_recover heidrunok_read heidrunok_ask heidrunok_outlist,
    why!(heidrunok_why)
);

#[cfg(all(before, w6))]
const BEFORE_WHY: Option<Why> = None;
#[cfg(all(before, not(w6)))]
const BEFORE_WHY: Option<Why> = why!(before_heidrunok_why);

/// Up to W5 (cfg w5) a partition had at most 64 slots, a reference word was 64p + s + 1, and an outlist wrote 256 of the words lent here.
#[cfg(before)]
const BEFORE: Archive = Archive {
    #[cfg(w5)]
    radix: 64,
    ..archive!(
        "before",
        before_heidrunok_format before_heidrunok_commit before_heidrunok_open before_heidrunok_trace before_heidrunok_close
        before_heidrunok_local before_heidrunok_hold before_heidrunok_drop before_heidrunok_recover before_heidrunok_read
        before_heidrunok_ask before_heidrunok_outlist,
        BEFORE_WHY
    )
};

/// All that have partitions of so many slots. Rust first: what the others are held to.
pub fn sides(slots: usize) -> Vec<&'static dyn Side> {
    #[cfg(before)]
    let all: [&dyn Side; 3] = [&Rust, &BEFORE, &NOW];
    #[cfg(not(before))]
    let all: [&dyn Side; 2] = [&Rust, &NOW];
    all.into_iter().filter(|s| slots <= s.radix() as usize).collect()
}

fn told<T>(number: u32, extra: usize, answer: T) -> Result<T, Refusal> {
    if number == 0 {
        Ok(answer)
    } else {
        Err(Refusal { number, extra })
    }
}

// SAFETY of every block: slices with their lengths, which nobody else holds where they are written, and numbers of our own.
impl Side for Archive {
    fn name(&self) -> &'static str {
        self.name
    }
    fn radix(&self) -> u32 {
        self.radix
    }
    fn explains(&self) -> bool {
        self.why.is_some()
    }
    fn format(&self, img: &mut [u32], p: u32, s: u32, log: &mut [u8], at: usize) -> Result<usize, Refusal> {
        let (mut n, mut x) = (0, 0);
        let number = unsafe { (self.format)(img.as_mut_ptr(), img.len(), p, s, log.as_mut_ptr(), log.len(), at, &mut n, &mut x) };
        told(number, x, n)
    }
    fn commit(&self, img: &mut [u32], t: &Transaction, log: &mut [u8], at: usize) -> Result<usize, Refusal> {
        let (mut n, mut x) = (0, 0);
        let (ops, k) = (t.words.as_ptr(), t.words.len());
        let number = unsafe { (self.commit)(img.as_mut_ptr(), img.len(), ops, k, log.as_mut_ptr(), log.len(), at, &mut n, &mut x) };
        told(number, x, n)
    }
    fn open(&self, img: &mut [u32], log: &mut [u8], at: usize) -> Result<usize, Refusal> {
        let (mut n, mut x) = (0, 0);
        let number = unsafe { (self.open)(img.as_mut_ptr(), img.len(), log.as_mut_ptr(), log.len(), at, &mut n, &mut x) };
        told(number, x, n)
    }
    fn trace(&self, img: &mut [u32], t: u32, log: &mut [u8], at: usize) -> Result<usize, Refusal> {
        let (mut n, mut x) = (0, 0);
        let number = unsafe { (self.trace)(img.as_mut_ptr(), img.len(), t, log.as_mut_ptr(), log.len(), at, &mut n, &mut x) };
        told(number, x, n)
    }
    fn close(&self, img: &mut [u32], log: &mut [u8], at: usize) -> Result<Closed, Refusal> {
        let (mut n, mut c, mut f, mut x) = (0, 0, 0, 0);
        let number = unsafe { (self.close)(img.as_mut_ptr(), img.len(), log.as_mut_ptr(), log.len(), at, &mut n, &mut c, &mut f, &mut x) };
        told(number, x, Closed { length: n, count: c, freed: f })
    }
    fn local(&self, img: &mut [u32], t: u32, log: &mut [u8], at: usize) -> Result<Freed, Refusal> {
        let (mut n, mut f, mut x) = (0, 0, 0);
        let number = unsafe { (self.local)(img.as_mut_ptr(), img.len(), t, log.as_mut_ptr(), log.len(), at, &mut n, &mut f, &mut x) };
        told(number, x, Freed { length: n, freed: f })
    }
    fn hold(&self, img: &mut [u32], h: u32, o: Name, log: &mut [u8], at: usize) -> Result<usize, Refusal> {
        let (mut n, mut x) = (0, 0);
        let (words, bytes) = (img.len(), log.len());
        let number = unsafe { (self.hold)(img.as_mut_ptr(), words, h, o.partition, o.slot, log.as_mut_ptr(), bytes, at, &mut n, &mut x) };
        told(number, x, n)
    }
    fn drop(&self, img: &mut [u32], h: u32, log: &mut [u8], at: usize) -> Result<usize, Refusal> {
        let (mut n, mut x) = (0, 0);
        let number = unsafe { (self.drop)(img.as_mut_ptr(), img.len(), h, log.as_mut_ptr(), log.len(), at, &mut n, &mut x) };
        told(number, x, n)
    }
    fn recover(&self, img: &mut [u32], log: &[u8]) -> Result<usize, Fault> {
        let (mut n, mut line, mut byte) = (0, 0, usize::MAX); // a byte that is not written differs from every answer
        let number = unsafe { (self.recover)(img.as_mut_ptr(), img.len(), log.as_ptr(), log.len(), &mut n, &mut line, &mut byte) };
        told(number, line, n).map_err(|_| Fault { number, line, byte })
    }
    fn read(&self, img: &[u32], n: Name) -> Result<Object, Refusal> {
        let (mut payload, mut fields) = (0, [0; 4]);
        let number = unsafe { (self.read)(img.as_ptr(), img.len(), n.partition, n.slot, &mut payload, &mut fields) };
        told(number, 0, Object { payload, fields: fields.map(catalogue::target) })
    }
    fn ask(&self, img: &[u32], n: Name) -> Result<bool, Refusal> {
        let mut yes = false;
        let number = unsafe { (self.ask)(img.as_ptr(), img.len(), n.partition, n.slot, &mut yes) };
        told(number, 0, yes)
    }
    fn outlist(&self, img: &[u32], t: u32) -> Result<Outlist, Refusal> {
        let mut o = Outlist { held: 0, names: [0; NAMES] };
        let number = unsafe { (self.outlist)(img.as_ptr(), img.len(), t, &mut o.held, &mut o.names) };
        told(number, 0, o)
    }
    fn why(&self, img: &[u32], n: Name, words: &mut [u32]) -> Result<Chain, Refusal> {
        let (mut handle, mut start, mut references) = (true, u32::MAX, usize::MAX);
        let (p, s, k) = (n.partition, n.slot, words.len());
        let why = self.why.unwrap();
        let number = unsafe { why(img.as_ptr(), img.len(), p, s, words.as_mut_ptr(), k, &mut handle, &mut start, &mut references) };
        if number != 0 && (handle, start, references) != (false, 0, 0) {
            return Err(Refusal { number, extra: usize::MAX }); // differs from every answer
        }
        told(number, 0, Chain { start: if handle { Start::Handle(start) } else { Start::Root(start) }, references })
    }
}
