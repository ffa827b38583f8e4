//! What is asked for, and the table of times.

use anyhow::Error;
use std::alloc::{AllocError, Global};
use std::env;
use std::rt::{Clock, Env};
use std::time::Instant;

/// How many rows the largest relations have, and whether times are shown.
#[derive(Clone, Copy)]
pub struct Bench {
    pub alloc: Global,
    pub rows: u64,
    /// The rows of a packet, and of a morsel, and how many packets a producer may run ahead.
    pub packet: u32,
    pub morsel: u32,
    pub slack: u32,
    /// How often each call is made.
    pub repeats: u64,
    /// The queries that are measured, and nothing else: bit N for query N. Where there is none, all is measured.
    pub only: u32,
    pub with_times: bool,
}

/// The times of a subject in nanoseconds, as far as they are there: serial; run by teams of 1, 4 and 64 workers in turns; by
/// teams of 1 and 4 threads; and by hand.
pub type Times = [Option<u64>; 7];

/// The nanoseconds since a time.
pub fn nanos_since<R: Clock>(rt: &R, start: Instant) -> Result<u64, Error> {
    Ok(u64::try_from(start.elapsed(rt)?.as_nanos()).unwrap_or(u64::MAX))
}

/// The lesser of a time and those before it, if there were any.
pub fn least(before: Option<u64>, nanos: u64) -> Option<u64> {
    Some(before.map_or(nanos, |least| least.min(nanos)))
}

// A time for each row, in nanoseconds with a tenth.
fn per_row(alloc: Global, nanos: Option<u64>, rows: u64) -> Result<String, AllocError> {
    let Some(nanos) = nanos else {
        return String::from_str(alloc, "-");
    };
    let tenths = nanos.saturating_mul(10) / rows.max(1);
    format!(in alloc; "{}.{}", tenths / 10, tenths % 10)
}

// How many times as long one took as the other.
fn ratio(alloc: Global, nanos: Option<u64>, other: Option<u64>) -> Result<String, AllocError> {
    let (Some(nanos), Some(other)) = (nanos, other) else {
        return String::from_str(alloc, "-");
    };
    let hundredths = nanos.saturating_mul(100) / other.max(1);
    format!(in alloc; "{}.{:02}", hundredths / 100, hundredths % 100)
}

impl Bench {
    // Takes the number at this place of the arguments: of rows, of the rows of a packet, of those of a morsel, of packets
    // that a producer may run ahead.
    fn set(&mut self, place: usize, word: &str) -> Result<(), Error> {
        match place {
            0 => self.rows = word.parse::<u64>()?,
            1 => self.packet = word.parse::<u32>()?,
            2 => self.morsel = word.parse::<u32>()?,
            _ => self.slack = word.parse::<u32>()?,
        }
        Ok(())
    }

    // Takes the numbers of the queries that alone are measured, as in `3,10`.
    fn choose(&mut self, numbers: &str) -> Result<(), Error> {
        for number in numbers.split(',') {
            let bit = 1u32.checked_shl(number.parse::<u32>()?).unwrap_or(0);
            self.only |= bit;
        }
        Ok(())
    }

    // Takes an argument: `agree`, `only=3,10`, `repeats=3`, or the number at this place. Returns whether it was a number.
    fn take(&mut self, place: usize, word: &str) -> Result<bool, Error> {
        if word == "agree" {
            self.with_times = false;
            self.repeats = 1;
        } else if let Some(numbers) = word.strip_prefix("only=") {
            self.choose(numbers)?;
        } else if let Some(count) = word.strip_prefix("repeats=") {
            self.repeats = count.parse::<u64>()?;
        } else {
            self.set(place, word)?;
            return Ok(true);
        }
        Ok(false)
    }

    /// What the arguments ask for: a number of rows, of the rows of a packet and of a morsel, of packets that a producer may
    /// run ahead; `only` and `repeats`; and `agree` for no times.
    pub fn asked<R: Env + Alloc>(rt: &R, alloc: Global) -> Result<Bench, Error> {
        let mut bench = Bench {
            alloc,
            rows: 1_000_000,
            packet: 256,
            morsel: 1024,
            slack: 8,
            repeats: 11,
            only: 0,
            with_times: true,
        };
        let mut place = 0usize;
        for word in env::args(rt)?.skip(1) {
            if bench.take(place, word.as_str())? {
                place = place.saturating_add(1);
            }
        }
        Ok(bench)
    }

    /// Whether this query is measured.
    pub fn wants(self, query: u32) -> bool {
        self.only == 0 || self.only.checked_shr(query).unwrap_or(0) % 2 == 1
    }

    /// Shows the head of the table.
    pub fn show_head<R: Print>(self, rt: &R) -> Result<(), Error> {
        if self.with_times {
            println!(rt;
                "subject                      rows   serial    run 1    run 4   run 64 threads 1 threads 4  by hand serial/hand   1/serial        64/1 threads 4/1"
            )?;
        }
        Ok(())
    }

    /// Shows the subject `name`: its `times` for each of `rows` rows and their ratios, or `found`, which is the same in each run.
    pub fn show<R: Print>(
        self,
        rt: &R,
        name: &str,
        rows: u64,
        times: Times,
        found: &str,
    ) -> Result<(), Error> {
        if !self.with_times {
            println!(rt; "{name}: {found}")?;
            return Ok(());
        }
        print!(rt; "{name:<24} {rows:>8}")?;
        for nanos in times {
            let cell = per_row(self.alloc, nanos, rows)?;
            print!(rt; " {:>8}", cell.as_str())?;
        }
        let [serial, one, _, many, one_thread, four_threads, by_hand] = times;
        for (nanos, other) in [
            (serial, by_hand),
            (one, serial),
            (many, one),
            (four_threads, one_thread),
        ] {
            let cell = ratio(self.alloc, nanos, other)?;
            print!(rt; " {:>11}", cell.as_str())?;
        }
        println!(rt; "")?;
        Ok(())
    }
}
