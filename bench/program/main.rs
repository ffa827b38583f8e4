//! Times over the relations of `vx_wisconsin`, as one table: generating, loading and writing one, tests of its keys, queries by the
//! serial evaluation, by 1, 4 and 64 workers in rounds, by 1 and 4 in threads and by hand over plain columns, the checker, a
//! ring, a deck, and what the processors give at once.
//!
//! Its arguments are the number of rows of the two largest relations, 1,000,000 where none is said, those of a packet and of
//! a morsel, 256 and 1,024 by default, and how many packets a producer may run ahead, 8 by default. With the argument
//! `agree` it shows no times, but what is the same in each run; with `only=3,10` it measures these queries and the loading alone, and with
//! `repeats=3` it makes each call so often (11 times by default). It fails where two ways give different rows, a
//! ring other packets than were put, or a deck a number not once.
#![tactic(auto)]

mod bench;
mod by_hand;
mod checker;
mod columns;
mod decks;
mod digest;
mod processors;
mod queries;
mod relations;
mod rings;

use crate::bench::Bench;
use crate::columns::{Columns, table_of};
use crate::relations::TENK1;
use anyhow::Error;

fn main(rt: HostRuntime) -> Result<(), Error> {
    let bench = Bench::asked(&rt, rt.alloc())?;
    bench.show_head(&rt)?;
    let database = bench.measure_loading(&rt)?;
    let tenk1 = table_of(bench.alloc, &database, TENK1)?;
    if bench.only == 0 {
        bench.measure_key(&rt, &tenk1, "key unique1", 0)?;
        bench.measure_key(&rt, &tenk1, "key stringu1", 13)?;
        bench.measure_writing(&rt, &database)?;
    }
    let columns = Columns::of(bench.alloc, &database, &tenk1)?;
    bench.measure_queries(&rt, &database, &columns)?;
    if bench.only != 0 {
        return bench.measure_processors(&rt);
    }
    bench.measure_checker(&rt)?;
    bench.measure_ring(&rt)?;
    bench.measure_deck(&rt)?;
    bench.measure_processors(&rt)
}
