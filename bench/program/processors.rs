//! What the processors of the machine give at once: how long a plain loop takes in one thread, and in each of four at the same time. As long, if
//! each has a core of its own; twice as long, if two share one.

use crate::bench::{Bench, least, nanos_since};
use anyhow::{Error, bail};
use std::rt::Clock;
use std::thread;
use std::thread::Threads;
use std::time::Instant;

const STEPS_OF_A_ROW: u64 = 5;

// The most that a loop takes.
const MOST_STEPS: u64 = 5_000_000;

const SUMS: usize = 8;

// Adds to sums of which none waits for another, so that a core has something to do at all times.
fn add_to_each(sums: &mut [u64; SUMS], number: u64) {
    for k in 0..SUMS {
        sums[k] = sums[k].wrapping_add(number ^ k as u64).rotate_left(3);
    }
}

// What `steps` steps make of sums that begin at 0.
fn add_all(steps: u64) -> [u64; SUMS] {
    let mut sums = [0; SUMS];
    for number in 0..steps {
        add_to_each(&mut sums, number);
    }
    sums
}

impl Bench {
    // How long `threads` threads take, where each makes all `steps` steps.
    fn loop_in<R: Clock + Threads + Sync>(
        self,
        rt: &R,
        steps: u64,
        threads: usize,
    ) -> Result<u64, Error> {
        let each = vec![in self.alloc; steps; threads]?;
        let start = Instant::now(rt)?;
        let sums = thread::map_vec(rt, each, &|steps: u64| add_all(steps))?;
        let nanos = nanos_since(rt, start)?;
        let wanted = add_all(steps);
        for found in sums {
            if found != wanted {
                bail!("a loop gave other sums in another thread");
            }
        }
        Ok(nanos)
    }

    // The least time of a loop.
    fn least_loop<R: Clock + Threads + Sync>(
        self,
        rt: &R,
        steps: u64,
        threads: usize,
    ) -> Result<Option<u64>, Error> {
        let mut nanos = None;
        for _ in 0..self.repeats {
            nanos = least(nanos, self.loop_in(rt, steps, threads)?);
        }
        Ok(nanos)
    }

    /// Runs the loop in one thread, and in four at once: the time is for each step of each thread. It fails where two threads have other sums.
    pub fn measure_processors<R: Print + Clock + Threads + Sync>(
        self,
        rt: &R,
    ) -> Result<(), Error> {
        let steps = self.rows.saturating_mul(STEPS_OF_A_ROW).min(MOST_STEPS);
        let one = self.least_loop(rt, steps, 1)?;
        let four = self.least_loop(rt, steps, 4)?;
        let found = format!(in self.alloc;
            "the same sums of {steps} steps in each of one thread and four"
        )?;
        let times = [None, None, None, None, one, four, None];
        self.show(rt, "loop, 1 and 4 threads", steps, times, found.as_str())
    }
}
