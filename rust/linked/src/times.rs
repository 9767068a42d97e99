//! Processor times, in turns.

use crate::calls::{Calls, BY_HAND, LINKED};
use crate::work::Work;
use std::hint::black_box;

pub const TURNS: usize = 101;
/// How often a work is done in a turn.
const TIMES: u16 = 1_500;

#[repr(C)]
struct Timespec {
    seconds: i64,
    nanoseconds: i64,
}

extern "C" {
    fn clock_gettime(clock: i32, time: *mut Timespec) -> i32;
}

const CLOCK_THREAD_CPUTIME_ID: i32 = 3;

/// The processor time of this thread, in nanoseconds.
fn now() -> i64 {
    let mut time = Timespec {
        seconds: 0,
        nanoseconds: 0,
    };
    // SAFETY: the C library's own function, with a place for its answer
    let status = unsafe { clock_gettime(CLOCK_THREAD_CPUTIME_ID, &mut time) };
    assert_eq!(status, 0, "the thread's clock");
    time.seconds * 1_000_000_000 + time.nanoseconds
}

/// What a call takes in nanoseconds, linked and by hand.
#[derive(Clone, Copy)]
pub struct Pair {
    pub linked: f64,
    pub by_hand: f64,
}

/// The medians of a call of each work.
pub fn measured(works: &[Work]) -> Vec<Pair> {
    let mut times = vec![(Vec::new(), Vec::new()); works.len()];
    for turn in 0..TURNS {
        for (work, (linked, by_hand)) in works.iter().zip(&mut times) {
            let (one, other);
            if turn % 2 == 0 {
                one = once(*work, &LINKED);
                other = once(*work, &BY_HAND);
            } else {
                other = once(*work, &BY_HAND);
                one = once(*work, &LINKED);
            }
            assert_eq!(one.1, other.1, "both must do the same: {:?}", work);
            linked.push(one.0);
            by_hand.push(other.0);
        }
    }
    times
        .into_iter()
        .map(|(linked, by_hand)| Pair {
            linked: median(linked),
            by_hand: median(by_hand),
        })
        .collect()
}

/// The nanoseconds a call, and the sum of what the calls said.
fn once(work: Work, calls: &Calls) -> (f64, u64) {
    let calls = black_box(calls);
    let mut block = work.block(calls);
    work.repeat(calls, &mut block, 20);
    let mut block = work.block(calls);
    let start = now();
    let sum = work.repeat(calls, black_box(&mut block), TIMES);
    let taken = now() - start;
    (
        taken as f64 / f64::from(TIMES) / work.calls() as f64,
        black_box(sum),
    )
}

fn median(mut times: Vec<f64>) -> f64 {
    times.sort_by(|a, b| a.partial_cmp(b).expect("times are numbers"));
    times[times.len() / 2]
}
