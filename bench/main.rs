//! Runs the cutter and the plain Rust reference on the same inputs, checks that they agree, and prints the times and their ratio.
//! Usage: bench [ROUNDS]     Each job is run in turn by both, ROUNDS times; the least time of each counts.

mod reference;

use reference::{Loss, Pair, Squares, Votes};
use std::time::Instant;

unsafe extern "C" {
    fn squares_by_penalty(readings: *const u8, bytes: usize, penalty: u64, times: u32) -> u64;
    fn squares_by_count(readings: *const u8, bytes: usize, count: u16, times: u32) -> u64;
    fn squares_path(readings: *const u8, bytes: usize, times: u32) -> u64;
    fn pair_by_penalty(readings: *const u8, bytes: usize, penalty: u64, times: u32) -> u64;
    fn pair_by_count(readings: *const u8, bytes: usize, count: u16, times: u32) -> u64;
    fn pair_path(readings: *const u8, bytes: usize, times: u32) -> u64;
}

const COUNT: u16 = 61;
const PENALTY: u64 = 200_000;

/// A line of n readings with some ten levels and noise, and a class for each.
fn line(n: usize) -> (Vec<i16>, Vec<u8>) {
    let mut x = 12345u32;
    let mut next = |m: u32| {
        x = x.wrapping_mul(1103515245).wrapping_add(12345);
        (x >> 16) % m
    };
    let (mut level, mut class) = (0i32, 0u8);
    let (mut readings, mut codes) = (vec![], vec![]);
    for _ in 0..n {
        if next(50) == 0 {
            level = next(6000) as i32 - 3000;
            class = next(16) as u8;
        }
        readings.push((level + next(400) as i32 - 200) as i16);
        codes.push(if next(5) == 0 { next(16) as u8 } else { class });
    }
    (readings, codes)
}

fn sum_of_path(steps: &[(u64, u16, u64)]) -> u64 {
    steps.iter().fold(0u64, |s, &(p, k, l)| s.wrapping_mul(31).wrapping_add(p ^ l).wrapping_add(u64::from(k)))
}

fn sum_of_cut(total: u64, boundaries: &[u16]) -> u64 {
    boundaries.iter().fold(total, |s, &b| s.wrapping_mul(31).wrapping_add(u64::from(b)))
}

/// What the reference's jobs give, in the same form as the cutter's.
fn reference_jobs<L: Loss>(loss: &L, n: usize, job: usize, times: u32) -> u64 {
    let mut boundaries = Vec::with_capacity(n);
    let mut sum = 0u64;
    for _ in 0..times {
        sum = sum.wrapping_add(match job {
            0 => {
                let total = reference::cut_by_penalty(loss, n, PENALTY, &mut boundaries);
                sum_of_cut(total, &boundaries)
            }
            1 => {
                let total = reference::cut_by_count(loss, n, COUNT as usize, &mut boundaries);
                sum_of_cut(total, &boundaries)
            }
            _ => sum_of_path(&reference::path(loss, n)),
        });
    }
    sum
}

fn timed(run: impl Fn() -> u64) -> (f64, u64) {
    let start = Instant::now();
    let sum = run();
    (start.elapsed().as_secs_f64(), sum)
}

fn compare(name: &str, rounds: u32, times: u32, cutter: impl Fn(u32) -> u64, plain: impl Fn(u32) -> u64) {
    let (mut ours, mut theirs) = (f64::MAX, f64::MAX);
    for _ in 0..rounds {
        let (t, a) = timed(|| cutter(times));
        ours = ours.min(t);
        let (t, b) = timed(|| plain(times));
        theirs = theirs.min(t);
        assert_eq!(a, b, "{name}: the cutter and the reference differ");
    }
    let each = |t: f64| t * 1e3 / f64::from(times);
    println!("{name:<28} cutter {:>9.3} ms   plain Rust {:>9.3} ms   ratio {:.2}", each(ours), each(theirs), ours / theirs);
}

fn main() {
    let rounds = std::env::args().nth(1).map_or(5, |a| a.parse().expect("a number of rounds"));
    for n in [64usize, 128, 256, 512] {
        let (readings, codes) = line(n);
        let squares = Squares::new(&readings);
        let pair = Pair { port: Squares::new(&readings), starboard: Votes::new(&codes), weight: 100 };
        let bytes: Vec<u8> = readings.iter().flat_map(|x| x.to_be_bytes()).collect();
        let both: Vec<u8> = readings.iter().zip(&codes).flat_map(|(x, c)| [x.to_be_bytes()[0], x.to_be_bytes()[1], *c]).collect();
        let (s, p) = ((bytes.as_ptr(), bytes.len()), (both.as_ptr(), both.len()));
        let few = if n == 512 { 1 } else { 4 };
        compare(&format!("n = {n}, squares, penalty"), rounds, 20 * few, |t| unsafe { squares_by_penalty(s.0, s.1, PENALTY, t) }, |t| reference_jobs(&squares, n, 0, t));
        compare(&format!("n = {n}, squares, count 61"), rounds, few, |t| unsafe { squares_by_count(s.0, s.1, COUNT, t) }, |t| reference_jobs(&squares, n, 1, t));
        compare(&format!("n = {n}, squares, path"), rounds, few, |t| unsafe { squares_path(s.0, s.1, t) }, |t| reference_jobs(&squares, n, 2, t));
        compare(&format!("n = {n}, pair, penalty"), rounds, 20 * few, |t| unsafe { pair_by_penalty(p.0, p.1, PENALTY, t) }, |t| reference_jobs(&pair, n, 0, t));
        compare(&format!("n = {n}, pair, count 61"), rounds, few, |t| unsafe { pair_by_count(p.0, p.1, COUNT, t) }, |t| reference_jobs(&pair, n, 1, t));
        compare(&format!("n = {n}, pair, path"), rounds, few, |t| unsafe { pair_path(p.0, p.1, t) }, |t| reference_jobs(&pair, n, 2, t));
    }
}
