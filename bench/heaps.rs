//! Random heaps, transactions and logs to try and to time, about half full; and chains.
use crate::catalogue::{self, Name, Operation, FIELDS, FLAGS, FRONT, HANDLES, INLIST, ROOTS, SLOTS, STRIDE};

/// P and S.
#[derive(Clone, Copy, PartialEq, Eq)]
pub struct Size {
    pub p: usize,
    pub s: usize,
}

/// The largest up to W5, the largest, and a small one.
pub const SIZES: [Size; 3] = [Size { p: 16, s: 64 }, Size { p: 16, s: SLOTS }, Size { p: 4, s: 16 }];

impl Size {
    pub fn of(img: &[u32]) -> Self {
        Size { p: img[0] as usize, s: img[1] as usize }
    }

    pub fn places(self) -> usize {
        self.p * self.s
    }

    /// How many objects there are in a heap that is half full.
    pub fn half(self) -> usize {
        self.places() / 2
    }

    pub fn words(self) -> usize {
        FRONT + STRIDE * self.places()
    }

    pub fn name_of(self, j: usize) -> Name {
        Name { partition: (j / self.s) as u32, slot: (j % self.s) as u32 }
    }

    /// The place that a reference word names, if it names one.
    pub fn place_of(self, w: u32) -> Option<usize> {
        catalogue::target(w).map(|n| n.partition as usize * self.s + n.slot as usize)
    }
}

impl std::fmt::Display for Size {
    fn fmt(&self, f: &mut std::fmt::Formatter) -> std::fmt::Result {
        write!(f, "P = {}, S = {}", self.p, self.s)
    }
}

/// xorshift64*: the same numbers on every machine.
pub struct Random(u64);

impl Random {
    pub fn new(seed: u64) -> Self {
        Random(seed.wrapping_mul(0x9e3779b97f4a7c15) | 1)
    }

    pub fn next(&mut self) -> u64 {
        self.0 ^= self.0 >> 12;
        self.0 ^= self.0 << 25;
        self.0 ^= self.0 >> 27;
        self.0.wrapping_mul(0x2545f4914f6cdd1d) >> 16
    }

    pub fn below(&mut self, n: usize) -> usize {
        (self.next() % n as u64) as usize
    }

    pub fn pick<T: Copy>(&mut self, from: &[T]) -> T {
        from[self.below(from.len())]
    }
}

fn state(img: &[u32], j: usize) -> u32 {
    img[FRONT + STRIDE * j]
}

fn fields(img: &[u32], j: usize) -> &[u32] {
    &img[FRONT + STRIDE * j..][FIELDS]
}

pub fn places(img: &[u32], used: bool) -> Vec<usize> {
    (0..Size::of(img).places()).filter(|&j| (state(img, j) != 0) == used).collect()
}

/// The lowest partition that is not clean.
pub fn unclean(img: &[u32]) -> Option<usize> {
    (0..img[0] as usize).find(|q| img[FLAGS.start + q] == 0)
}

/// The same image, its reference words by another multiplier.
pub fn said_by(radix: u32, img: &[u32]) -> Vec<u32> {
    let fields = (0..Size::of(img).places()).flat_map(|j| FIELDS.map(move |k| FRONT + STRIDE * j + k));
    let mut said = img.to_vec();
    for a in ROOTS.chain(HANDLES).chain(fields) {
        said[a] = catalogue::target(img[a]).map_or(0, |n| radix * n.partition + n.slot + 1);
    }
    said
}

/// The places to which a root leads.
pub fn reached(img: &[u32]) -> Vec<usize> {
    let size = Size::of(img);
    let mut seen = vec![false; size.places()];
    let mut list = Vec::new();
    let mut note = |words: &[u32], list: &mut Vec<usize>| {
        for j in words.iter().filter_map(|&w| size.place_of(w)) {
            if !seen[j] {
                seen[j] = true;
                list.push(j);
            }
        }
    };
    note(&img[ROOTS], &mut list);
    let mut at = 0;
    while at < list.len() {
        note(fields(img, list[at]), &mut list);
        at += 1;
    }
    list
}

/// The places one reference away from roots and handles.
pub fn near(img: &[u32]) -> Vec<usize> {
    let size = Size::of(img);
    let named: Vec<usize> = ROOTS.chain(HANDLES).filter_map(|a| size.place_of(img[a])).collect();
    let next = named.iter().flat_map(|&j| fields(img, j)).filter_map(|&w| size.place_of(w));
    next.filter(|j| !named.contains(j)).collect()
}

/// What refers to a new object at place j: most are referred to at once, from one to which a root was seen to lead, where there is one.
fn holder_of(r: &mut Random, img: &[u32], j: usize, led: &[usize], used: &[usize]) -> Operation {
    let size = Size::of(img);
    let from = r.pick(if led.is_empty() { used } else { led });
    if r.below(8) == 0 {
        return Operation::Root(r.below(16) as u32, Some(size.name_of(j)));
    }
    let empty = fields(img, from).iter().position(|&w| w == 0);
    Operation::Set(size.name_of(from), empty.unwrap_or(r.below(4)) as u32, Some(size.name_of(j)))
}

/// A change of an object or a root. Most references stay within a partition, and most stores fill an empty field, so that most objects stay
/// in reach.
fn change(r: &mut Random, img: &[u32], used: &[usize]) -> Operation {
    let size = Size::of(img);
    let j = r.pick(used);
    let near: Vec<usize> = used.iter().copied().filter(|i| i / size.s == j / size.s).collect();
    let target = Some(size.name_of(if r.below(4) > 0 { r.pick(&near) } else { r.pick(used) }));
    let empty = fields(img, j).iter().rposition(|&w| w == 0);
    let holder = size.name_of(j);
    match r.below(20) {
        0..=8 if empty.is_some() || r.below(4) == 0 => Operation::Set(holder, empty.unwrap_or(r.below(4)) as u32, target),
        9 => Operation::Set(holder, r.below(4) as u32, None),
        0..=8 | 10..=17 => Operation::Val(holder, r.next() as u32),
        18 => Operation::Root(r.below(16) as u32, target),
        _ if r.below(2) == 0 => Operation::Root(r.below(8) as u32, None),
        _ => Operation::Root(r.below(8) as u32, target),
    }
}

/// A good transaction of n operations on an image, with at most so many new objects.
pub fn transaction(r: &mut Random, img: &[u32], n: usize, mut news: usize) -> Vec<Operation> {
    let mut used = places(img, true);
    let mut free = places(img, false);
    let led = reached(img);
    let mut ops = Vec::new();
    while ops.len() < n {
        if !used.is_empty() && (news == 0 || free.is_empty() || r.below(2) > 0) {
            ops.push(change(r, img, &used));
            continue;
        }
        let j = free.swap_remove(r.below(free.len()));
        used.push(j);
        news = news.saturating_sub(1);
        ops.push(Operation::New(Size::of(img).name_of(j), r.next() as u32));
        if ops.len() < n && r.below(8) > 0 {
            ops.push(holder_of(r, img, j, &led, &used));
        }
    }
    ops
}

/// A blank image and its heading: of edition 3 where S allows it, since archives up to W5 have no later one.
fn headed(img: &mut [u32], size: Size, log: &mut [u8]) -> usize {
    let at = catalogue::format(img, size.p as u32, size.s as u32, log, 0).unwrap();
    if size.s <= 64 {
        log[5] = b'3';
    }
    at
}

/// A log in the making, with its heap.
pub struct Log {
    r: Random,
    size: Size,
    pub image: Vec<u32>,
    pub bytes: Vec<u8>,
    at: usize,
    pub lines: usize,
    pub phases: usize,
    pub traces: usize,
    pub locals: usize,
    pub sessions: usize,
    commits: usize,
    used: usize,
}

impl Log {
    fn new(seed: u64, size: Size, lines: usize) -> Self {
        let mut image = vec![0; size.words()];
        let mut bytes = vec![0; 32 * lines + 65536];
        let at = headed(&mut image, size, &mut bytes);
        Log { r: Random::new(seed), size, image, bytes, at, lines: 1, phases: 0, traces: 0, locals: 0, sessions: 0, commits: 0, used: 0 }
    }

    fn finish(mut self) -> Self {
        self.bytes.truncate(self.at);
        self
    }

    /// Objects in use after a commit, on average.
    pub fn objects(&self) -> usize {
        self.used / self.commits.max(1)
    }

    fn commit(&mut self, ops: &[Operation]) {
        self.at += catalogue::commit(&mut self.image, ops, &mut self.bytes, self.at).unwrap();
        self.lines += ops.len() + 1;
        self.commits += 1;
        self.used += self.image[FRONT..].iter().step_by(STRIDE).filter(|&&x| x != 0).count();
    }

    /// A random transaction, which makes new objects as long as the heap is not nine sixteenths full.
    fn transact(&mut self) {
        let n = 7 + self.r.below(7);
        let half = self.size.half();
        let news = (half + half / 8).saturating_sub(places(&self.image, true).len());
        let ops = transaction(&mut self.r, &self.image, n, news);
        self.commit(&ops);
    }

    fn trace(&mut self, q: usize) {
        self.at += catalogue::trace(&mut self.image, q as u32, &mut self.bytes, self.at).unwrap();
        self.lines += 1;
        self.traces += 1;
    }

    fn open(&mut self) {
        self.at += catalogue::open(&mut self.image, &mut self.bytes, self.at).unwrap();
        self.lines += 1;
    }

    fn close(&mut self) {
        while let Some(q) = unclean(&self.image) {
            self.trace(q);
        }
        self.at += catalogue::close(&mut self.image, &mut self.bytes, self.at).unwrap().length;
        self.lines += 1;
        self.phases += 1;
    }

    /// A whole phase, a transaction in the middle of it, always the lowest partition that is not clean next.
    fn phase(&mut self) {
        self.open();
        for _ in 0..3 + self.r.below(10) {
            match unclean(&self.image) {
                Some(q) => self.trace(q),
                None => break,
            }
        }
        self.transact();
        if self.image[ROOTS].iter().all(|&w| w == 0) {
            let j = places(&self.image, true)[0]; // the transaction took the last root: give one back
            self.commit(&[Operation::Root(0, Some(self.size.name_of(j)))]);
        }
        self.close();
    }

    /// A random partition on its own, if a root is in use.
    fn local(&mut self) {
        let q = self.r.below(self.size.p) as u32;
        if let Ok(f) = catalogue::local(&mut self.image, q, &mut self.bytes, self.at) {
            self.at += f.length;
            self.lines += 1;
            self.locals += 1;
        }
    }

    /// One of eight handles takes a random object, or nothing.
    fn session(&mut self) {
        let h = self.r.below(8) as u32;
        let n = self.size.name_of(self.r.pick(&places(&self.image, true)));
        let (img, log) = (&mut self.image, &mut self.bytes);
        let dropped = self.r.below(3) == 0;
        let answer = if dropped { catalogue::drop(img, h, log, self.at) } else { catalogue::hold(img, h, n, log, self.at) };
        self.at += answer.unwrap();
        self.lines += 1;
        self.sessions += 1;
    }
}

/// A log of at least `lines` lines. With phases: a whole one after ten transactions if half the slots are in use then, else after 25 at most.
/// With locals: a local collection after every fourth transaction. With sessions: a hold or a drop after every second one.
pub fn log(size: Size, lines: usize, phases: bool, locals: bool, sessions: bool) -> Log {
    let mut l = Log::new(lines as u64, size, lines);
    let mut since = 0;
    while l.lines < lines {
        l.transact();
        since += 1;
        if locals && l.commits % 4 == 0 {
            l.local();
        }
        if sessions && l.commits % 2 == 0 {
            l.session();
        }
        if phases && (since >= 10 && places(&l.image, true).len() >= size.half() || since >= 25) {
            since = 0;
            l.phase();
        }
    }
    l.finish()
}

/// Phases over one partition whose objects are a chain in reverse slot order.
pub fn chain_log(s: usize, lines: usize) -> Log {
    let mut l = Log::new(1, Size { p: 1, s }, lines);
    for ops in chain_operations(l.size, s).chunks(32) {
        l.commit(ops);
    }
    while l.lines < lines {
        l.open();
        l.close();
    }
    l.finish()
}

/// A log of as many lines and bytes as another has, but for a few, whose transactions are of `val` alone: its recovery is reading lines and
/// little else.
pub fn values(size: Size, like: &[u8]) -> Vec<u8> {
    let mut r = Random::new(3);
    let mut img = vec![0; size.words()];
    let mut log = vec![0; 2 * like.len() + 65536];
    let names: Vec<Name> = (0..31).map(|i| size.name_of(size.places() / 31 * i)).collect();
    let news: Vec<Operation> = names.iter().map(|&n| Operation::New(n, 1)).collect();
    let mut at = headed(&mut img, size, &mut log);
    at += catalogue::commit(&mut img, &news, &mut log, at).unwrap();
    let mut lines = 2 + news.len();
    let wanted = like.iter().filter(|&&b| b == b'\n').count();
    while lines < wanted {
        let n = (wanted - lines).clamp(2, 13) - 1;
        // the digits of a payload make up for what is missing to the other log's bytes so far
        let due = like.len() * (lines + n + 1) / wanted;
        let digits = (due.saturating_sub(at + 6 + 11 * n) / n).min(9) as u32;
        let ops: Vec<Operation> = (0..n)
            .map(|_| Operation::Val(r.pick(&names), 10u32.pow(digits) + r.below(9 * 10usize.pow(digits).min(10_000)) as u32))
            .collect();
        at += catalogue::commit(&mut img, &ops, &mut log, at).unwrap();
        lines += n + 1;
    }
    log.truncate(at);
    log
}

/// A half-full heap with no phase open, its fields set at random.
pub fn heap(size: Size, seed: u64) -> Vec<u32> {
    let mut r = Random::new(seed);
    let mut img = vec![0; size.words()];
    let mut log = vec![0; 4096];
    headed(&mut img, size, &mut log);
    for _ in 0..size.places() * 200 / 1024 {
        let news = size.half().saturating_sub(places(&img, true).len());
        let ops = transaction(&mut r, &img, 20, news);
        catalogue::commit(&mut img, &ops, &mut log, 0).unwrap();
    }
    for k in 8..16 {
        let j = r.pick(&places(&img, true));
        catalogue::commit(&mut img, &[Operation::Root(k, Some(size.name_of(j)))], &mut log, 0).unwrap();
    }
    img
}

/// The first n places in use, each but the first with field 0 to the place below it, and root 0 to the last: a chain down the slots, which
/// passes in slot order follow one step a pass.
fn chain_operations(size: Size, n: usize) -> Vec<Operation> {
    let object = |j: usize| Operation::New(size.name_of(j), j as u32);
    let link = |j: usize| Operation::Set(size.name_of(j), 0, Some(size.name_of(j - 1)));
    (0..n).map(object).chain((1..n).map(link)).chain([Operation::Root(0, Some(size.name_of(n - 1)))]).collect()
}

/// Such a chain over the first n places of a heap, a phase open, so that its last object is marked.
pub fn chain(size: Size, n: usize) -> Vec<u32> {
    let mut l = Log::new(1, size, 0);
    for ops in chain_operations(size, n).chunks(32) {
        l.commit(ops);
    }
    l.open();
    l.image
}

/// Objects that many chains lead to, as short and as long: fields that name few objects or near ones, the same ones again among them, and
/// roots and handles from one to all.
pub fn tied(r: &mut Random, size: Size) -> Vec<u32> {
    let mut img = vec![0; size.words()];
    catalogue::format(&mut img, size.p as u32, size.s as u32, &mut [0; 32], 0).unwrap();
    let dense = 1 + r.below(4);
    let mut used: Vec<usize> = (0..size.places()).filter(|_| r.below(4) < dense).collect();
    if used.is_empty() {
        used.push(r.below(size.places()));
    }
    let word = |j: usize| catalogue::word(Some(size.name_of(j)));
    let (full, few, near) = (1 + r.below(4), 1 + r.below(used.len()), r.below(3) > 0);
    for (i, &j) in used.iter().enumerate() {
        img[FRONT + STRIDE * j] = 1;
        for k in FIELDS {
            if r.below(4) >= full {
                continue;
            }
            let t = if near { used[(i + r.below(few.min(9) + 1)) % used.len()] } else { used[r.below(few)] };
            img[FRONT + STRIDE * j + k] = word(t);
            img[FRONT + STRIDE * t + INLIST] += (t / size.s != j / size.s) as u32;
        }
    }
    let many = r.below(4);
    for a in ROOTS.chain(HANDLES) {
        if r.below(9) < many * many {
            img[a] = word(r.pick(&used));
        }
    }
    let a = if r.below(2) == 0 { ROOTS.start + r.below(ROOTS.len()) } else { HANDLES.start + r.below(HANDLES.len()) };
    img[a] = word(r.pick(&used));
    img
}
