//! All sides give the same answers: on the report's logs, on cut and altered ones, and call by call on random heaps.
use crate::archive::{self, Side, Transaction};
use crate::catalogue::{
    self, Chain, Fault, Name, Operation, Refusal, Start, EDITIONS, FIELDS, FLAGS, FRONT, HANDLES, ROOTS, SLOTS, STRIDE,
};
use crate::heaps::{self, Random, Size};
use std::fmt::Debug;

/// Those that have today's images.
fn sides() -> Vec<&'static dyn Side> {
    archive::sides(SLOTS)
}

/// The common answer of all sides, each with its own image and log, which agree afterwards too.
struct Lent {
    images: Vec<Vec<u32>>,
    logs: Vec<Vec<u8>>,
}

impl Lent {
    fn new(words: usize, bytes: usize) -> Self {
        let n = sides().len();
        Lent { images: vec![vec![0; words]; n], logs: vec![vec![46; bytes]; n] }
    }

    fn image(&self) -> &[u32] {
        &self.images[0]
    }

    /// The same change to every image.
    fn bend(&mut self, f: impl FnOnce(&mut [u32])) {
        f(&mut self.images[0]);
        let (first, rest) = self.images.split_at_mut(1);
        rest.iter_mut().for_each(|img| img.copy_from_slice(&first[0]));
    }

    /// A call by every side: `f` is given the side's number.
    fn all<T: PartialEq + Debug>(&mut self, what: &str, mut f: impl FnMut(usize, &mut [u32], &mut [u8]) -> T) -> T {
        let mut answers: Vec<T> = Vec::new();
        for (k, (img, log)) in self.images.iter_mut().zip(&mut self.logs).enumerate() {
            answers.push(f(k, img, log));
        }
        for k in 1..answers.len() {
            assert_eq!(answers[0], answers[k], "{what} by {}", sides()[k].name());
            assert!(self.images[0] == self.images[k], "image after {what} by {}", sides()[k].name());
            assert!(self.logs[0] == self.logs[k], "log after {what} by {}", sides()[k].name());
        }
        answers.swap_remove(0)
    }
}

/// All recover a log into words of a length, which hold something else on each side.
fn recovered(log: &[u8], words: usize) -> (Result<usize, Fault>, Vec<u32>) {
    let mut lent = Lent::new(words, 0);
    for (k, img) in lent.images.iter_mut().enumerate() {
        img.fill(7 + k as u32);
    }
    let what = format!("recovery of {:?}", String::from_utf8_lossy(log));
    let answer = lent.all(&what, |k, img, _| sides()[k].recover(img, log));
    (answer, lent.images.swap_remove(0))
}

/// The length that a log's heading asks for, if it has one.
fn words_of(log: &[u8]) -> usize {
    let text = String::from_utf8_lossy(log);
    let fields: Vec<&str> = text.lines().next().unwrap_or("").split('\t').collect();
    match fields[..] {
        ["heap", "1" | "2" | "3" | "4", p, s] => {
            let n = |x: &str| x.parse().unwrap_or(1usize).min(200);
            FRONT + STRIDE * n(p) * n(s)
        }
        _ => 125,
    }
}

/// The report on a log (docs/RULES.md).
fn report(log: &[u8]) -> String {
    if log.len() > 32768 {
        return "toolong\n".into();
    }
    let (answer, img) = recovered(log, words_of(log));
    match answer {
        Err(f) => format!("answer {}\nline {}\nbyte {}\n", f.number, f.line, f.byte),
        Ok(kept) => {
            let s = img[1] as usize;
            let objects = img[FRONT..].chunks(STRIDE).enumerate().filter(|(_, slot)| slot[0] != 0);
            let lines = objects.map(|(j, slot)| format!("object {} {} {}\n", j / s, j % s, slot[1]));
            format!("answer 0\nkept {kept}\nphase {}\n", img[2]) + &lines.collect::<String>()
        }
    }
}

/// A log cut at random, and up to two of its bytes altered.
fn altered(r: &mut Random, log: &[u8]) -> Vec<u8> {
    let mut bad = log.to_vec();
    bad.truncate(r.below(log.len() + 1));
    for _ in 0..r.below(3) {
        if !bad.is_empty() {
            let at = r.below(bad.len());
            bad[at] = r.pick(b"\n\t0123456789newsetclrvalrootunrootendopentracecloselocalholddropheap ");
        }
    }
    bad
}

pub fn reports(folder: &str) {
    let mut r = Random::new(5);
    let (mut logs, mut others) = (0, 0);
    let mut bytes = [[0usize; 22]; 2]; // of refusals 3 and 4
    for entry in std::fs::read_dir(folder).unwrap() {
        let path = entry.unwrap().path();
        if path.extension().map_or(true, |e| e != "log") {
            continue;
        }
        let log = std::fs::read(&path).unwrap();
        let want = std::fs::read_to_string(path.with_extension("report")).unwrap();
        assert_eq!(report(&log), want, "{path:?}");
        logs += 1;
        for words in [0, 68, 69, 93, 125, heaps::SIZES[0].words(), heaps::SIZES[1].words()] {
            let _ = recovered(&log, words);
        }
        for _ in 0..if log.len() > 32768 { 0 } else { 200 } {
            if let (Err(Fault { number: n @ 3..=4, byte, .. }), _) = recovered(&altered(&mut r, &log), words_of(&log)) {
                bytes[n as usize - 3][byte] += 1;
            }
            others += 1;
        }
    }
    println!("recovery: {logs} logs of {folder} agree with their reports and in every word, {others} cut or altered ones agree");
    println!("of these refused with 3 at bytes 0 to 21: {:?}, with 4: {:?}", bytes[0], bytes[1]);
}

/// A body of a keyword and so many numbers that has a length, if there is one: all numbers of one digit but for the k-th, and those after it
/// where its ten digits do not do.
fn body(keyword: &str, numbers: usize, length: usize, k: usize) -> Option<String> {
    let mut more = length.checked_sub(keyword.len() + 2 * numbers)?;
    let mut text = keyword.to_string();
    for i in 0..numbers {
        let digits = if i < k { 0 } else { more.min(9) };
        more -= digits;
        text += &format!("\t{}", &"4294967295"[..=digits]);
    }
    (more == 0).then_some(text)
}

/// Bodies of 19 to 23 bytes, each with whether it is the last number that is long.
fn bodies(keyword: &str, numbers: usize) -> Vec<(String, bool)> {
    let all = (19..24).flat_map(|length| (0..numbers).map(move |k| (length, k)));
    all.filter_map(|(length, k)| body(keyword, numbers, length, k).map(|text| (text, k + 1 == numbers))).collect()
}

/// Such bodies under every edition: as a line, as a tail, headings as a later line and as the first. Behind their limit they are refused, and
/// at the limit's own byte where the last number is the long one.
pub fn limits() {
    let mut tried = 0;
    let mut refused = |log: String, number: u32, long: Option<usize>, last: bool| {
        let fault = recovered(log.as_bytes(), Size { p: 2, s: 4 }.words()).0.err().filter(|f| f.number == number);
        assert_eq!(fault.is_some(), long.is_some(), "{log:?}");
        assert!(!last || fault.map(|f| f.byte) == long, "{log:?}");
        tried += 1;
    };
    let headings: Vec<String> = (1..=EDITIONS.len()).map(|e| format!("heap\t{e}")).collect();
    for (heading, limit) in headings.iter().zip(EDITIONS.map(|t| t.bytes)) {
        let long = |body: &str| (body.len() > limit).then_some(limit);
        for (keyword, numbers) in [("new", 3), ("set", 5), ("clr", 3), ("val", 3), ("root", 3), ("hold", 3)] {
            for (body, last) in bodies(keyword, numbers) {
                for end in ["", "\n"] {
                    refused(format!("{heading}\t2\t4\n{body}{end}"), 4, long(&body), last);
                }
            }
        }
        for (body, last) in headings.iter().flat_map(|later| bodies(later, 2)) {
            refused(format!("{heading}\t2\t4\n{body}\n"), 4, long(&body), last);
        }
        for (body, last) in bodies(heading, 2) {
            refused(format!("{body}\n"), 3, long(&body), last);
        }
    }
    println!("limits: {tried} lines and tails of 19 to 23 bytes agree, headings among them");
}

/// Any operation, its numbers sometimes too large.
fn any_operation(r: &mut Random, p: usize, s: usize) -> Operation {
    let big = |r: &mut Random, n: usize| {
        if r.below(40) == 0 {
            return r.next() as u32;
        }
        let more = r.below(30) / 29;
        r.below(n + more) as u32
    };
    let name = |r: &mut Random| Name { partition: big(r, p), slot: big(r, s) };
    match r.below(6) {
        0 | 1 => Operation::New(name(r), r.next() as u32),
        2 => {
            let (n, k, t) = (name(r), big(r, 4), name(r));
            Operation::Set(n, k, (r.below(4) > 0).then_some(t))
        }
        3 => Operation::Val(name(r), r.next() as u32),
        _ => {
            let (k, t) = (big(r, 16), name(r));
            Operation::Root(k, (r.below(6) > 0).then_some(t))
        }
    }
}

/// A transaction that is often accepted, or any operations, perhaps too many or none.
fn any_transaction(r: &mut Random, img: &[u32], p: usize, s: usize) -> Transaction {
    let sound = crate::catalogue::read(img, Name { partition: p as u32, slot: 0 }) != Err(Refusal { number: 1, extra: 0 });
    if sound && p == 16 && r.below(2) == 0 {
        let n = 1 + r.below(33);
        return Transaction::new(heaps::transaction(r, img, n, 10));
    }
    let n = if r.below(2) == 0 { 1 + r.below(3) } else { r.below(35) };
    Transaction::new((0..n).map(|_| any_operation(r, p, s)).collect())
}

/// Images that calls alone do not come to: perhaps not sound; or sound, with the count at the allowance, or all clean and a mark taken away.
fn any_image(r: &mut Random, lent: &mut Lent, p: usize, s: usize) {
    if r.below(150) == 0 {
        let (i, v) = (r.below(lent.image().len()), r.below(SLOTS + 6) as u32);
        lent.bend(|img| img[i] = v);
    }
    if lent.image()[2] == 1 && r.below(12) == 0 {
        let (spent, at) = (r.below(2) == 0, FRONT + STRIDE * r.below(p * s));
        lent.bend(|img| match spent {
            true => img[3] = img[4],
            false => {
                img[FLAGS][..p].fill(1);
                img[at] = img[at].min(1);
            }
        });
    }
}

/// The length of the record of a call and its number, 0 where it is accepted.
fn outcome<T>(answer: Result<T, Refusal>, length: impl Fn(T) -> usize) -> (usize, u32) {
    match answer {
        Ok(x) => (length(x), 0),
        Err(r) => (0, r.number),
    }
}

/// A name, mostly of an object in use, at times one whose partition is too large.
fn any_name(r: &mut Random, img: &[u32], p: usize, s: usize) -> Name {
    let used: Vec<usize> = (0..p * s).filter(|j| img[FRONT + STRIDE * j] != 0).collect();
    let place = if used.is_empty() || r.below(4) == 0 { r.below(p * s + s) } else { r.pick(&used) };
    Name { partition: (place / s) as u32, slot: (place % s) as u32 }
}

/// The chain to an object in use, its names and fields in turn, by another way than any side goes: how far each object is from this one, and
/// then always the lowest name that is nearer by one.
fn chain_to(img: &[u32], n: Name) -> Option<(Start, Vec<u32>)> {
    let size = Size::of(img);
    let named = |w: u32| size.place_of(w);
    let fields = |j: usize| &img[FRONT + STRIDE * j..][FIELDS];
    let mut away: Vec<Option<usize>> = vec![None; size.places()];
    let mut ring = vec![size.place_of(catalogue::word(Some(n))).unwrap()];
    for d in 0.. {
        ring.iter().for_each(|&j| away[j] = Some(d));
        let next = |j: &usize| away[*j].is_none() && fields(*j).iter().any(|&w| named(w).is_some_and(|i| away[i] == Some(d)));
        ring = (0..size.places()).filter(next).collect();
        if ring.is_empty() {
            break;
        }
    }
    let far = |w: u32| named(w).and_then(|j| away[j]);
    let anchors = || ROOTS.chain(HANDLES).map(|a| img[a]);
    let mut d = anchors().filter_map(far).min()?;
    let first = anchors().filter(|&w| far(w) == Some(d)).min()?;
    let a = anchors().position(|w| w == first)?;
    let start = if a < ROOTS.len() { Start::Root(a as u32) } else { Start::Handle((a - ROOTS.len()) as u32) };
    let mut words = vec![first];
    while d > 0 {
        d -= 1;
        let row = fields(named(words[words.len() - 1])?);
        let (name, field) = (0..).zip(row).filter(|&(_, &w)| far(w) == Some(d)).map(|(k, &w)| (w, k)).min()?;
        words.extend([field, name]);
    }
    Some((start, words))
}

/// A random length of words for a chain of so many.
fn any_length(r: &mut Random, chain: usize) -> usize {
    match r.below(8) {
        0 => r.below(chain + 1),
        1 => chain.saturating_sub(1),
        2 => r.below(4),
        3 | 4 => chain,
        5 => chain + 1,
        _ => chain + r.below(40),
    }
}

/// `why` by all that have it, Rust in the others' stead: the answer and all words lent, which are those of the chain by another way.
fn any_why(r: &mut Random, lent: &mut Lent, n: Name) -> Result<Chain, Refusal> {
    let judged = catalogue::read(lent.image(), n).err();
    let chain = if judged.is_some() { None } else { chain_to(lent.image(), n) };
    let found: Vec<u32> = (0..any_length(r, chain.as_ref().map_or(9, |c| c.1.len()))).map(|_| r.next() as u32).collect();
    let (answer, words) = lent.all(&format!("why of {n:?} in {} words", found.len()), |k, img, _| {
        let mut words = found.clone();
        let side = if sides()[k].explains() { sides()[k] } else { sides()[0] };
        (side.why(img, n, &mut words), words)
    });
    let (want, written) = match (judged, &chain) {
        (Some(refusal), _) => (Err(refusal), 0),
        (_, None) => (Err(Refusal { number: 18, extra: 0 }), 0),
        (_, Some((_, c))) if c.len() > found.len() => (Err(Refusal { number: 19, extra: 0 }), 0),
        (_, Some((start, c))) => (Ok(Chain { start: *start, references: c.len() / 2 }), c.len()),
    };
    assert_eq!(answer, want, "why of {n:?}");
    let left = chain.iter().flat_map(|c| &c.1).take(written).chain(&found[written..]);
    assert!(words.iter().eq(left), "words after why of {n:?}");
    answer
}

/// A random call by all sides, its record at a place.
fn any_call(r: &mut Random, lent: &mut Lent, p: usize, s: usize, at: usize) -> (usize, u32) {
    let more = r.below(12) / 11;
    let q = r.below(p + more) as u32;
    let n = any_name(r, lent.image(), p, s);
    let h = if r.below(20) == 0 { 31 + r.below(2) as u32 } else { r.below(3) as u32 }; // few, so that they are met again
    match r.below(22) {
        0..=4 => {
            let t = any_transaction(r, lent.image(), p, s);
            outcome(lent.all(&format!("commit of {:?}", t.ops), |k, img, log| sides()[k].commit(img, &t, log, at)), |n| n)
        }
        5 => outcome(lent.all("open", |k, img, log| sides()[k].open(img, log, at)), |n| n),
        6..=8 => {
            let q = if r.below(2) == 0 { heaps::unclean(lent.image()).unwrap_or(0) as u32 } else { q };
            outcome(lent.all("trace", |k, img, log| sides()[k].trace(img, q, log, at)), |n| n)
        }
        9 => outcome(lent.all("close", |k, img, log| sides()[k].close(img, log, at)), |c| c.length),
        10 | 11 => outcome(lent.all("local", |k, img, log| sides()[k].local(img, q, log, at)), |f| f.length),
        12..=14 => outcome(lent.all("hold", |k, img, log| sides()[k].hold(img, h, n, log, at)), |n| n),
        15 => outcome(lent.all("drop", |k, img, log| sides()[k].drop(img, h, log, at)), |n| n),
        16 => outcome(lent.all("outlist", |k, img, _| sides()[k].outlist(img, q)), |_| 0),
        17 => outcome(lent.all("read", |k, img, _| sides()[k].read(img, n)), |_| 0),
        18 | 19 => outcome(any_why(r, lent, n), |_| 0),
        _ => outcome(lent.all("ask", |k, img, _| sides()[k].ask(img, n)), |_| 0),
    }
}

/// Heaps of several sizes, sixty calls on each, and the recovery of its log under the heading of every edition.
pub fn calls(heaps: usize) {
    let mut r = Random::new(11);
    let mut tally = [0usize; 20];
    for _ in 0..heaps {
        let (p, s) = r.pick(&[(1, 1), (2, 4), (3, 5), (16, 64), (4, 64), (16, 128), (4, 128), (3, 100)]);
        let mut lent = Lent::new(FRONT + STRIDE * p * s, 20000);
        let mut at = lent.all("format", |k, img, log| sides()[k].format(img, p as u32, s as u32, log, 0)).unwrap();
        for _ in 0..60 {
            any_image(&mut r, &mut lent, p, s);
            let place = if r.below(40) == 0 { 19990 + r.below(20) } else { at };
            let (length, number) = any_call(&mut r, &mut lent, p, s, place);
            tally[number as usize] += 1;
            at += length;
        }
        let log = &mut lent.logs[0][..at];
        let newest = recovered(log, FRONT + STRIDE * p * s).0;
        for edition in b'1'..b'4' {
            log[5] = edition;
            let older = recovered(log, FRONT + STRIDE * p * s).0;
            assert_eq!(older, if s > 64 { Err(Fault { number: 2, line: 1, byte: 0 }) } else { newest });
        }
    }
    println!("calls: {} agree in answer, image and log; accepted and refused by number: {tally:?}", 60 * heaps);
}

/// `why` on heaps in which many chains tie, twenty objects of each, before the last of which a few heaps are bent so that they are not sound.
pub fn chains(heaps: usize) {
    let mut r = Random::new(13);
    let mut tally = [0usize; 20];
    let (mut long, mut handles) = (0, 0);
    for _ in 0..heaps {
        let (p, s) = r.pick(&[(1, 1), (1, 5), (2, 4), (3, 5), (4, 16), (3, 100), (1, 128), (16, 128)]);
        let size = Size { p, s };
        let mut lent = Lent::new(size.words(), 0);
        let img = heaps::tied(&mut r, size);
        lent.bend(|words| words.copy_from_slice(&img));
        for i in 0..20 {
            if i == 19 {
                any_image(&mut r, &mut lent, p, s);
            }
            let n = any_name(&mut r, lent.image(), p, s);
            match any_why(&mut r, &mut lent, n) {
                Ok(c) => {
                    tally[0] += 1;
                    long = long.max(c.references);
                    handles += matches!(c.start, Start::Handle(_)) as usize;
                }
                Err(refusal) => tally[refusal.number as usize] += 1,
            }
        }
    }
    println!("chains: {} agree in answer and words, with those of another way too; by number: {tally:?};", 20 * heaps);
    println!("{handles} of them start from a handle, the longest has {long} references");
}
