//! Holds the proved search for the overfull span against a plain Rust one: first the answers on random lanes, then
//! the times.
mod plain;

use plain::{Bounds, Span, Timing, Work};
use std::hint::black_box;
use std::time::Instant;

unsafe extern "C" {
    fn schedule_overfull_code(slot: u32, work: *const Work, len: usize) -> u64;
}

fn proved(slot: u32, work: &[Work]) -> Result<Option<Span>, Bounds> {
    // SAFETY: a `&[Work]` passes as a pointer and a length; the function has no `requires`.
    match unsafe { schedule_overfull_code(slot, work.as_ptr(), work.len()) } {
        u64::MAX => Ok(None),
        code if code == u64::MAX - 1 => Err(Bounds),
        code => Ok(Some(Span { l: (code >> 32) as u32, h: code as u32 })),
    }
}

/// xorshift: the same numbers on every run.
struct Random(u64);

impl Random {
    fn below(&mut self, n: u32) -> u32 {
        self.0 ^= self.0 << 13;
        self.0 ^= self.0 >> 7;
        self.0 ^= self.0 << 17;
        (self.0 % u64::from(n)) as u32
    }

    fn between(&mut self, low: u32, high: u32) -> u32 {
        low + self.below(high - low + 1)
    }

    /// Lanes that ask for about as many slots as there are: the load of `n` lanes, in turn, is drawn around 1 / n.
    fn lanes(&mut self, most_blocks: u32, slot: u32) -> Vec<Work> {
        let n = self.between(1, 8);
        (0..n)
            .map(|_| {
                let spare = self.below(6).pow(2).min(15);
                let fair = n * (spare + 1);
                let period = (fair * self.between(60, 120) / 100 + self.below(2)).clamp(1, 10_000);
                let count = self.between(1, most_blocks).min(900_000 / period);
                let start = slot + self.below(3 * period * n + 40);
                let next = if self.below(3) == 0 { self.below(count + 1) } else { 0 };
                Work {
                    timing: Timing { count, start, period, depth: self.between(2, 8), spare },
                    admitted: slot.saturating_sub(self.below(2) * 5).min(start),
                    next,
                    failed: if next < count { self.below(spare + 1) } else { 0 },
                }
            })
            .collect()
    }
}

/// Compares the answers on `n` lists of lanes, and tells how many fit, crowd and are refused.
fn compare(name: &str, n: u32, most_blocks: u32, random: &mut Random) {
    let (mut fit, mut crowd, mut refused) = (0, 0, 0);
    for i in 0..n {
        let slot = random.below(200);
        let mut work = random.lanes(most_blocks, slot);
        if i % 50 == 0 {
            work[0].timing.depth = random.between(0, 10);
        }
        let (ours, theirs) = (proved(slot, &work), plain::overfull(slot, &work));
        assert_eq!(ours, theirs, "slot {slot}: {work:?}");
        match ours {
            Ok(None) => fit += 1,
            Ok(Some(_)) => crowd += 1,
            Err(Bounds) => refused += 1,
        }
    }
    println!("{name}: {n} answers agree ({fit} fit, {crowd} crowd, {refused} refused)");
}

fn lane(count: u32, start: u32, period: u32, depth: u32, spare: u32) -> Work {
    Work { timing: Timing { count, start, period, depth, spare }, admitted: 0, next: 0, failed: 0 }
}

/// The cases to be timed: eight lanes of 4,096 blocks, in several orders, and others.
fn cases(random: &mut Random) -> Vec<(String, Vec<Work>)> {
    let mut cases = Vec::new();
    for (period, spare) in [(40, 3), (136, 15)] {
        for depth in [2, 8] {
            let name = format!("period {period}, {spare} spare, depth {depth}");
            let eight = |start: &dyn Fn(u32) -> u32| (0..8).map(|k| lane(4096, start(k), period, depth, spare)).collect::<Vec<_>>();
            cases.push((format!("{name}, starts alike"), eight(&|_| 1000)));
            let rising = eight(&|k| 1000 + k * period / 8);
            cases.push((format!("{name}, starts rise"), rising.clone()));
            cases.push((format!("{name}, starts fall"), rising.iter().rev().copied().collect()));
            for i in 1..=4 {
                let mut mixed = rising.clone();
                for k in (1..8).rev() {
                    mixed.swap(k, random.below(k as u32 + 1) as usize);
                }
                cases.push((format!("{name}, starts mixed {i}"), mixed));
            }
            let drawn: Vec<u32> = (0..8).map(|_| 1000 + random.below(400)).collect();
            cases.push((format!("{name}, starts drawn"), eight(&|k| drawn[k as usize])));
        }
    }
    let depths = (0..8).map(|k| lane(4096, 1000 + 5 * k, 40, 2 + k % 7, 3)).collect();
    cases.push(("period 40, 3 spare, depths 2 to 8".into(), depths));
    let periods = [37, 41, 43, 47, 53, 59, 61, 67];
    cases.push(("periods 37 to 67, 3 spare".into(), periods.iter().map(|&p| lane(4096, 1000 + p, p, 2, 3)).collect()));
    cases.push(("one lane".into(), vec![lane(4096, 1000, 40, 2, 3)]));
    cases.push(("eight lanes of 100 blocks".into(), (0..8).map(|k| lane(100, 1000 + 5 * k, 40, 2, 3)).collect()));
    let mut full: Vec<Work> = (0..8).map(|k| lane(4096, 1000 + 5 * k, 40, 2, 4)).collect();
    full[7] = lane(1, 170_000, 40, 2, 4);
    full[6] = lane(4096, 4000, 40, 2, 9);
    cases.push(("crowded".into(), full));
    cases
}

/// The least time of a call, in µs, of many.
fn micros(f: fn(u32, &[Work]) -> Result<Option<Span>, Bounds>, work: &[Work], times: u32) -> f64 {
    let mut least = f64::MAX;
    for _ in 0..times {
        let start = Instant::now();
        for _ in 0..4 {
            let _ = black_box(f(black_box(0), black_box(work)));
        }
        least = least.min(start.elapsed().as_secs_f64() * 1e6 / 4.0);
    }
    least
}

fn main() {
    let mut random = Random(0x9e37_79b9_7f4a_7c15);
    compare("small", 200_000, 6, &mut random);
    compare("middling", 20_000, 100, &mut random);
    compare("large", 2_000, 4096, &mut random);
    let mut worst: f64 = 0.0;
    println!("{:44} {:>9} {:>9} {:>6}", "case", "ours µs", "plain µs", "ratio");
    for (name, work) in cases(&mut random) {
        let (mut ours, mut theirs) = (f64::MAX, f64::MAX);
        for _ in 0..5 {
            ours = ours.min(micros(proved, &work, 20));
            theirs = theirs.min(micros(plain::overfull, &work, 20));
        }
        worst = worst.max(ours / theirs);
        println!("{name:44} {ours:9.1} {theirs:9.1} {:6.2}", ours / theirs);
    }
    println!("worst ratio {worst:.2}");
}
