// What bench/lane_speed/main.rattle times, in plain Rust: scripts/measure parts runs both.

use std::time::Instant;

const CALLS: u32 = 2_000_000;

fn change(lanes: &mut [u32], call: u32) {
    let n = lanes.len();
    lanes[call as usize % n] = call & 1;
}

#[inline(never)]
fn all_le(a: &[u32], b: &[u32]) -> bool {
    a.iter().zip(b).all(|(x, y)| x <= y)
}

#[inline(never)]
fn count_over(a: &[u32], b: &[u32]) -> usize {
    a.iter().zip(b).filter(|(x, y)| x > y).count()
}

#[inline(never)]
fn max_into(a: &mut [u32], b: &[u32]) {
    for (x, y) in a.iter_mut().zip(b) {
        *x = (*x).max(*y);
    }
}

/// The microseconds of all calls, and the sum of what they answered.
fn timed(a: &mut [u32], mut ask: impl FnMut(&mut [u32]) -> u64) -> (u128, u64) {
    let mut told = 0u64;
    let start = Instant::now();
    for call in 0..CALLS {
        change(a, call);
        told = told.wrapping_add(ask(a));
    }
    (start.elapsed().as_micros(), told)
}

fn main() {
    for n in [8usize, 64, 256] {
        let mut a = vec![1u32; n];
        let b = vec![2u32; n];
        let (all, first) = timed(&mut a, |a| u64::from(all_le(a, &b)));
        let (count, second) = timed(&mut a, |a| count_over(&b, a) as u64);
        let (max, _) = timed(&mut a, |a| {
            max_into(a, &b);
            0
        });
        let lanes: u64 = a.iter().map(|lane| u64::from(*lane)).sum();
        let told = first.wrapping_add(second).wrapping_add(lanes);
        println!(
            "plain, {n} lanes: all_le {all} us, count_over {count} us, max_into {max} us ({told})"
        );
    }
}
