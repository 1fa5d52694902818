//! Timing in turn: every competitor runs once a round, in an order that rotates, from the same state; medians, and the middle half of the
//! ratios within a round. Long runs are timed by the thread's processor time (what others on the machine take does not count), short ones
//! by the processor's counter.

#[repr(C)]
struct Timespec {
    sec: i64,
    nsec: i64,
}

extern "C" {
    fn clock_gettime(clock: i32, t: *mut Timespec) -> i32;
}

const THREAD: i32 = 3;

fn thread_ns() -> f64 {
    let mut t = Timespec { sec: 0, nsec: 0 };
    unsafe { clock_gettime(THREAD, &mut t) };
    t.sec as f64 * 1e9 + t.nsec as f64
}

/// Nanoseconds of the thread's processor time that a long run takes.
pub fn long(f: impl FnOnce()) -> f64 {
    let t = thread_ns();
    f();
    thread_ns() - t
}

#[cfg(target_arch = "x86_64")]
fn ticks() -> u64 {
    use std::arch::x86_64::{_mm_lfence, _rdtsc};
    unsafe {
        _mm_lfence();
        let t = _rdtsc();
        _mm_lfence();
        t
    }
}

#[cfg(target_arch = "aarch64")]
fn ticks() -> u64 {
    let t: u64;
    unsafe { std::arch::asm!("isb", "mrs {}, cntvct_el0", "isb", out(reg) t) };
    t
}

/// The processor's counter: nanoseconds a tick, and the ticks that reading it twice takes.
pub struct Counter {
    unit: f64,
    own: f64,
}

impl Counter {
    pub fn new() -> Self {
        let (t, c) = (std::time::Instant::now(), ticks());
        while t.elapsed().as_millis() < 50 {}
        let unit = t.elapsed().as_nanos() as f64 / (ticks() - c) as f64;
        let n = 10_000;
        let own = (0..n).map(|_| (ticks().wrapping_sub(ticks())).wrapping_neg() as f64).sum::<f64>() / n as f64;
        Counter { unit, own }
    }

    /// Nanoseconds of a short run. Where the counter is coarse, only sums of several are good: their errors cancel out.
    pub fn short(&self, f: impl FnOnce()) -> f64 {
        let t = ticks();
        f();
        ((ticks() - t) as f64 - self.own) * self.unit
    }
}

/// The times of n competitors, by rounds. `run` is given the competitor and the round. The first three rounds are for nothing.
pub fn rounds(n: usize, rounds: usize, mut run: impl FnMut(usize, usize) -> f64) -> Vec<Vec<f64>> {
    let mut times = vec![Vec::with_capacity(rounds); n];
    for round in 0..rounds + 3 {
        for k in 0..n {
            let k = (k + round) % n;
            let t = run(k, round);
            if round >= 3 {
                times[k].push(t);
            }
        }
    }
    times
}

fn quantile(times: &[f64], q: f64) -> f64 {
    let mut sorted = times.to_vec();
    sorted.sort_by(f64::total_cmp);
    sorted[((sorted.len() - 1) as f64 * q).round() as usize]
}

fn show(ns: f64) -> String {
    if ns < 10_000.0 {
        format!("{:.2} us", ns / 1e3)
    } else if ns < 1_000_000.0 {
        format!("{:.1} us", ns / 1e3)
    } else {
        format!("{:.2} ms", ns / 1e6)
    }
}

/// The ratio of the medians, and the middle half of the ratios within a round.
fn ratio(a: &[f64], b: &[f64]) -> String {
    let within: Vec<f64> = a.iter().zip(b).map(|(x, y)| x / y).collect();
    format!("**{:.2}** ({:.2} to {:.2})", quantile(a, 0.5) / quantile(b, 0.5), quantile(&within, 0.25), quantile(&within, 0.75))
}

/// The pairs of sides whose ratios are shown: each with Rust, then before with now.
fn pairs(sides: usize) -> Vec<(usize, usize)> {
    let with_rust = (1..sides).map(|k| (k, 0));
    let with_now = (1..sides - 1).map(move |k| (k, sides - 1));
    with_rust.chain(with_now).collect()
}

/// The head of a table of times, in the words of the sides' names.
pub fn head(what: &str, names: &[&str]) {
    let mut columns = vec![what.to_string()];
    columns.extend(names.iter().map(|n| n.to_string()));
    columns.extend(pairs(names.len()).into_iter().map(|(a, b)| format!("{} / {}", names[a], names[b])));
    println!("| {} |\n|{}", columns.join(" | "), "---|".repeat(columns.len()));
}

/// A row of the table: the median of each side, and the ratios; nothing where a side has no times.
pub fn row(label: &str, times: &[Vec<f64>]) {
    let mut columns = vec![label.to_string()];
    let timed = |k: usize| !times[k].is_empty();
    columns.extend((0..times.len()).map(|k| if timed(k) { show(quantile(&times[k], 0.5)) } else { String::new() }));
    let ratio_of = |(a, b): (usize, usize)| if timed(a) && timed(b) { ratio(&times[a], &times[b]) } else { String::new() };
    columns.extend(pairs(times.len()).into_iter().map(ratio_of));
    println!("| {} |", columns.join(" | "));
}
