//! The time of one call on both sides, in turns.
use crate::cases::{answer_buffer, Case};
use crate::{ours, theirs};
use std::ptr::read_volatile;
use std::time::Duration;

/// Linux's clock of the calling thread's own time, which stands still while others have the processor.
const THREAD_TIME: i32 = 3;

extern "C" {
    fn clock_gettime(clock: i32, seconds_and_nanoseconds: *mut [i64; 2]) -> i32;
}

fn thread_time() -> Duration {
    let mut now = [0; 2];
    assert_eq!(unsafe { clock_gettime(THREAD_TIME, &mut now) }, 0);
    Duration::new(now[0] as u64, now[1] as u32)
}

/// A value that the compiler can neither foresee nor leave out. (Debian's compiler has no `black_box` yet.)
fn opaque<T: Copy>(value: T) -> T {
    unsafe { read_volatile(&value) }
}

const BATCH: Duration = Duration::from_millis(10);
const ROW: Duration = Duration::from_millis(800);
const LEAST_ROUNDS: usize = 3;
const MOST_ROUNDS: usize = 40;

/// The time of each call in a batch.
fn batch(calls: u32, call: &mut dyn FnMut()) -> Duration {
    let start = thread_time();
    for _ in 0..calls {
        call();
    }
    (thread_time() - start) / calls
}

/// How many calls make a batch: one call may be shorter than the clock shows.
fn calls_for(call: &mut dyn FnMut()) -> u32 {
    let mut calls = 1;
    while batch(calls, call) * calls < BATCH {
        calls *= 2;
    }
    calls
}

/// The least time of a call of ours and of theirs, in microseconds: what others on the machine take, caches above all, is only ever added.
pub fn least(case: &Case) -> (f64, f64) {
    let mut answer = answer_buffer();
    let mut our_call = || {
        opaque(ours::run(opaque(case), &mut answer));
    };
    let mut their_call = || {
        let (words, bytes) = theirs::run(opaque(case));
        opaque((words, bytes.as_ptr()));
    };
    let (our_calls, their_calls) = (calls_for(&mut our_call), calls_for(&mut their_call));
    let (mut our_least, mut their_least) = (Duration::MAX, Duration::MAX);
    let start = thread_time();
    for round in 0..MOST_ROUNDS {
        if LEAST_ROUNDS <= round && ROW < thread_time() - start {
            break;
        }
        our_least = our_least.min(batch(our_calls, &mut our_call));
        their_least = their_least.min(batch(their_calls, &mut their_call));
    }
    (our_least.as_secs_f64() * 1e6, their_least.as_secs_f64() * 1e6)
}
