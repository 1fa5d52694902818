//! How fast the proved catalogue is, against ordinary Rust of the same calls (bench/run).
mod archive;
mod catalogue;
mod check;
mod heaps;
mod timing;

use archive::{Side, Transaction};
use catalogue::{Chain, Name, Refusal, FRONT, RADIX, STRIDE};
use heaps::{Random, Size, SIZES};
use std::hint::black_box;

/// What every call is lent.
struct Lent {
    img: Vec<u32>,
    log: Vec<u8>,
    words: Vec<u32>,
}

impl Lent {
    fn new() -> Self {
        Lent { img: Vec::new(), log: vec![46; 65536], words: vec![0; 4096] }
    }

    fn fill(&mut self, img: &[u32]) {
        self.img.clear();
        self.img.extend_from_slice(img);
    }
}

fn names(sides: &[&dyn Side]) -> Vec<&'static str> {
    sides.iter().map(|s| s.name()).collect()
}

// ---- recovery

/// Recovery of a log, of one of as many lines and bytes that are `val` alone, and the difference: what the acts take, the line reader aside.
fn recovery_of(sides: &[&dyn Side], label: &str, log: &heaps::Log, rounds: usize) {
    let like = Size { p: 16, s: log.image[1] as usize };
    let values = heaps::values(like, &log.bytes);
    let logs = [&log.bytes, &values];
    let mut images = [log.image.clone(), vec![0; like.words()]];
    for side in sides {
        for (log, img) in logs.iter().zip(&mut images) {
            assert_eq!(side.recover(img, log), Ok(log.len()));
        }
        assert_eq!(images[0], heaps::said_by(side.radix(), &log.image));
    }
    let n = sides.len();
    let times = timing::rounds(2 * n, rounds, |k, _| {
        let img = &mut images[k / n];
        img.fill(u32::MAX);
        timing::long(|| _ = black_box(sides[k % n].recover(img, logs[k / n])))
    });
    let (all, lines) = times.split_at(n);
    let less = |(a, b): (&Vec<f64>, &Vec<f64>)| a.iter().zip(b).map(|(x, y)| x - y).collect();
    let acts: Vec<Vec<f64>> = all.iter().zip(lines).map(less).collect();
    timing::row(label, all);
    timing::row(&format!("`val` alone, as many lines, {} bytes", values.len()), lines);
    timing::row("the difference", &acts);
}

/// The kinds of logs, each with more in it than the one before: phases, local collections, sessions.
const KINDS: [&str; 4] = ["commits", "with phases", "with phases and locals", "with phases, locals and sessions"];

fn recovery(size: Size, rounds: usize) {
    let sides = archive::sides(size.s);
    println!("\n## Recovery, the whole log into one image, {size}\n");
    timing::head("log", &names(&sides));
    let few = |lines: usize| (rounds * 1000 / lines).max(31);
    for (k, kind) in KINDS.iter().enumerate() {
        for lines in [1_000, 10_000, 100_000] {
            let log = heaps::log(size, lines, k > 0, k > 1, k > 2);
            let counted = [(log.phases, "phases"), (log.traces, "traces"), (log.locals, "locals"), (log.sessions, "holds and drops")];
            let parts: String = counted.iter().filter(|(n, _)| *n > 0).map(|(n, of)| format!(", {n} {of}")).collect();
            let label = format!("{kind}, {} lines, {} bytes ({} objects{parts})", log.lines, log.bytes.len(), log.objects());
            recovery_of(&sides, &label, &log, few(lines));
        }
    }
    let log = heaps::chain_log(size.s, 1_000);
    let (lines, bytes, traces) = (log.lines, log.bytes.len(), log.traces);
    let label = format!("phases over a reverse chain of {}, {lines} lines, {bytes} bytes ({traces} traces)", size.s);
    recovery_of(&sides, &label, &log, few(1_000));
}

// ---- single calls

/// One heap at the moments at which calls are timed. There are many, so that no branch is learnt by heart.
struct Case {
    shut: Vec<u32>,
    held: Vec<u32>,
    opened: Vec<u32>,
    closing: Vec<u32>,
    /// A chain over half the places, and one that is the whole of a heap of one partition.
    chains: [Vec<u32>; 2],
    one: Transaction,
    many: Transaction,
    /// The partition of the long chain whose last object a root names.
    top: u32,
    traced: u32,
    loose: u32,
    object: Name,
    led: Name,
    /// One reference away from a root or handle.
    near: Name,
    lost: Name,
}

/// The names of a heap's objects: those to which a root leads, and those that are lost.
fn led_and_lost(img: &[u32]) -> (Vec<Name>, Vec<Name>) {
    let reached = heaps::reached(img);
    let (led, lost): (Vec<usize>, Vec<usize>) = heaps::places(img, true).iter().partition(|j| reached.contains(j));
    let names = |places: Vec<usize>| places.into_iter().map(|j| Size::of(img).name_of(j)).collect();
    (names(led), names(lost))
}

fn case(size: Size, seed: u64) -> Case {
    let mut r = Random::new(1000 + seed);
    let mut log = vec![0; 4096];
    let most = |count: &dyn Fn(usize) -> usize| (0..size.p).max_by_key(|&q| count(q)).unwrap() as u32; // of the partitions
    let has_both = |img: &Vec<u32>| !led_and_lost(img).1.is_empty() && !heaps::near(img).is_empty(); // not every small heap
    let shut = (0..).map(|k| heaps::heap(size, seed + 1000 * k)).find(has_both).unwrap();
    let (led, lost) = led_and_lost(&shut);
    let near = size.name_of(heaps::near(&shut)[0]);
    let mut opened = shut.clone();
    catalogue::open(&mut opened, &mut log, 0).unwrap();
    let mut closing = opened.clone();
    while let Some(q) = heaps::unclean(&closing) {
        catalogue::trace(&mut closing, q as u32, &mut log, 0).unwrap();
    }
    let used: Vec<Name> = heaps::places(&shut, true).into_iter().map(|j| size.name_of(j)).collect();
    let mut held = shut.clone();
    catalogue::hold(&mut held, HANDLE, used[used.len() / 2], &mut log, 0).unwrap();
    let marked = |q: usize| (0..size.s).filter(|s| opened[FRONT + STRIDE * (q * size.s + s)] == 2).count();
    let freed = |q: usize| catalogue::local(&mut shut.clone(), q as u32, &mut [0; 64], 0).unwrap().freed;
    Case {
        chains: [heaps::chain(size, size.half()), heaps::chain(Size { p: 1, ..size }, size.s)],
        one: Transaction::new(heaps::transaction(&mut r, &shut, 1, 1)),
        many: Transaction::new(heaps::transaction(&mut r, &shut, 32, 8)),
        top: (size.half() / size.s - 1) as u32,
        traced: most(&marked),
        loose: most(&freed),
        object: r.pick(&used),
        led: r.pick(&led),
        lost: r.pick(&lost),
        near,
        shut,
        held,
        opened,
        closing,
    }
}

/// A call, and the image of a case that it is made on. It is answered as it has to be.
struct Call {
    label: &'static str,
    on: fn(&Case) -> &[u32],
    make: fn(&dyn Side, &mut Lent, &Case) -> bool,
}

const AT: usize = 100;

/// The handle that is used.
const HANDLE: u32 = 31;

/// The object that a chain ends with.
const LAST: Name = Name { partition: 0, slot: 0 };

const CALLS: [Call; 16] = [
    Call {
        label: "format",
        on: |c| &c.shut,
        make: |s, l, c| black_box(s.format(&mut l.img, c.shut[0], c.shut[1], &mut l.log, AT)).is_ok(),
    },
    Call { label: "commit of 1", on: |c| &c.shut, make: |s, l, c| black_box(s.commit(&mut l.img, &c.one, &mut l.log, AT)).is_ok() },
    Call { label: "commit of 32", on: |c| &c.shut, make: |s, l, c| black_box(s.commit(&mut l.img, &c.many, &mut l.log, AT)).is_ok() },
    Call { label: "open", on: |c| &c.shut, make: |s, l, _| black_box(s.open(&mut l.img, &mut l.log, AT)).is_ok() },
    Call {
        label: "trace, random heap",
        on: |c| &c.opened,
        make: |s, l, c| black_box(s.trace(&mut l.img, c.traced, &mut l.log, AT)).is_ok(),
    },
    Call {
        label: "trace, reverse chain of S in a heap half full",
        on: |c| &c.chains[0],
        make: |s, l, c| black_box(s.trace(&mut l.img, c.top, &mut l.log, AT)).is_ok(),
    },
    Call {
        label: "trace, reverse chain of S alone (P = 1)",
        on: |c| &c.chains[1],
        make: |s, l, _| black_box(s.trace(&mut l.img, 0, &mut l.log, AT)).is_ok(),
    },
    Call { label: "close", on: |c| &c.closing, make: |s, l, _| black_box(s.close(&mut l.img, &mut l.log, AT)).is_ok() },
    Call { label: "local", on: |c| &c.shut, make: |s, l, c| black_box(s.local(&mut l.img, c.loose, &mut l.log, AT)).is_ok() },
    Call { label: "hold", on: |c| &c.shut, make: |s, l, c| black_box(s.hold(&mut l.img, HANDLE, c.object, &mut l.log, AT)).is_ok() },
    Call {
        label: "hold in a phase, of an object that no root leads to",
        on: |c| &c.closing,
        make: |s, l, c| black_box(s.hold(&mut l.img, HANDLE, c.lost, &mut l.log, AT)).is_ok(),
    },
    Call { label: "drop", on: |c| &c.held, make: |s, l, _| black_box(s.drop(&mut l.img, HANDLE, &mut l.log, AT)).is_ok() },
    Call { label: "outlist", on: |c| &c.shut, make: |s, l, c| black_box(s.outlist(&l.img, c.traced)).is_ok() },
    Call { label: "read", on: |c| &c.shut, make: |s, l, c| black_box(s.read(&l.img, c.object)).is_ok() },
    Call { label: "ask, answered yes", on: |c| &c.shut, make: |s, l, c| black_box(s.ask(&l.img, c.led)) == Ok(true) },
    Call { label: "ask, answered no", on: |c| &c.shut, make: |s, l, c| black_box(s.ask(&l.img, c.lost)) == Ok(false) },
];

/// Since W7.
const WHYS: [Call; 4] = [
    Call {
        label: "why, one reference away",
        on: |c| &c.shut,
        make: |s, l, c| matches!(black_box(s.why(&l.img, c.near, &mut l.words)), Ok(Chain { references: 1, .. })),
    },
    Call { label: "why, the object of `ask`", on: |c| &c.shut, make: |s, l, c| black_box(s.why(&l.img, c.led, &mut l.words)).is_ok() },
    Call {
        label: "why, the last of a chain in a heap half full",
        on: |c| &c.chains[0],
        make: |s, l, c| {
            let far = Size::of(&c.chains[0]).half() - 1;
            matches!(black_box(s.why(&l.img, LAST, &mut l.words)), Ok(Chain { references, .. }) if references == far)
        },
    },
    Call {
        label: "why, refused with 18",
        on: |c| &c.shut,
        make: |s, l, c| black_box(s.why(&l.img, c.lost, &mut l.words)) == Err(Refusal { number: 18, extra: 0 }),
    },
];

/// Every call, with the sides that have it.
fn all_calls(size: Size) -> Vec<(&'static Call, Vec<&'static dyn Side>)> {
    let sides = archive::sides(size.s);
    let explaining: Vec<&dyn Side> = sides.iter().copied().filter(|s| s.explains()).collect();
    let first = CALLS.iter().map(|c| (c, sides.clone()));
    first.chain(WHYS.iter().map(|c| (c, explaining.clone()))).collect()
}

/// So many heaps make a round: where the counter is coarse, one call is too short to be timed.
const BATCH: usize = 8;

fn calls(size: Size, rounds: usize) {
    let sides = archive::sides(size.s);
    println!("\n## Single calls, {size}, {} objects; 64 heaps in turn\n", size.half());
    timing::head("call", &names(&sides));
    let counter = timing::Counter::new();
    let cases: Vec<Case> = (0..64).map(|seed| case(size, seed)).collect();
    let mut lent = Lent::new();
    for (call, able) in all_calls(size) {
        let of = |side: &&dyn Side| cases.iter().map(|c| heaps::said_by(side.radix(), (call.on)(c))).collect();
        let images: Vec<Vec<Vec<u32>>> = able.iter().map(of).collect();
        let mut times = timing::rounds(able.len(), rounds, |k, round| {
            let mut sum = 0.0;
            for i in 0..BATCH {
                let i = (BATCH * round + i) % cases.len();
                lent.fill(&images[k][i]);
                let mut good = false;
                sum += counter.short(|| good = (call.make)(black_box(able[k]), &mut lent, &cases[i]));
                assert!(good, "{} by {}", call.label, able[k].name());
            }
            sum / BATCH as f64
        });
        // the others have no times
        let mut of = |side: &&dyn Side| if names(&able).contains(&side.name()) { times.remove(0) } else { Vec::new() };
        timing::row(call.label, &sides.iter().map(&mut of).collect::<Vec<_>>());
    }
}

// ---- instructions

/// So many heaps, since making them is what takes time where instructions are counted.
const COUNTED: usize = 2;

/// What there is to count: how many heaps, then the size's number, the sides that have it and the call.
fn to_count() {
    println!("{COUNTED}");
    for (k, size) in SIZES.iter().enumerate() {
        for (call, sides) in all_calls(*size) {
            println!("{k}\t{}\t{}\t{size}, {}", names(&sides).join(" "), call.label, call.label);
        }
    }
}

/// One call by one side on some heaps, for a counter of instructions around the whole program; or, by no side, all but the call.
fn counts(size: Size, call: &Call, side: &str) {
    let side = archive::sides(size.s).into_iter().find(|s| s.name() == side);
    let radix = side.map_or(RADIX, |s| s.radix());
    let mut lent = Lent::new();
    for case in (0..COUNTED as u64).map(|seed| case(size, seed)) {
        lent.fill(&heaps::said_by(radix, (call.on)(&case)));
        if let Some(side) = side {
            assert!((call.make)(side, &mut lent, &case));
        }
    }
}

fn main() {
    let args: Vec<String> = std::env::args().collect();
    let args: Vec<&str> = args.iter().skip(1).map(String::as_str).collect();
    match args[..] {
        ["check", folder] => {
            check::reports(folder);
            check::limits();
            check::calls(4000);
            check::chains(4000);
        }
        [what @ ("all" | "recovery" | "calls"), rounds] => {
            let rounds = rounds.parse().unwrap();
            if what != "calls" {
                SIZES[..2].iter().for_each(|&size| recovery(size, rounds));
            }
            if what != "recovery" {
                SIZES.iter().for_each(|&size| calls(size, rounds));
            }
        }
        ["counts"] => to_count(),
        ["counts", size, call, side] => {
            let call = CALLS.iter().chain(&WHYS).find(|c| c.label == call).unwrap();
            counts(SIZES[size.parse::<usize>().unwrap()], call, side);
        }
        _ => panic!("bench/run says what there is"),
    }
}
