//! The relations, and how long it takes to generate, to load, to test and to write one.

use crate::bench::{Bench, least, nanos_since};
use anyhow::{Error, bail};
use csv::{ByteRecord, ReaderBuilder};
use std::alloc::Global;
use std::rt::Clock;
use std::thread::Threads;
use std::time::Instant;
use vx_catalog::{Database, Loader, format_rows};
use vx_catalog_bytes::{MemoryIn, Real};
use vx_catalog_loading::load_in_threads;
use vx_catalog_relations::Catalog;
use vx_catalog_writing::format_in_threads;
use vx_rows::Table;
use vx_wisconsin::{catalog, generate};

/// The relations, by their numbers in the catalog.
pub const TENK1: usize = 0;

pub const TENK2: usize = 1;

pub const ONEK: usize = 2;

pub const BPRIME: usize = 3;

// How many threads load and write.
const THREADS: usize = 4;

// How often threads load the largest relation, and `csv` reads its text.
const LOADS: usize = 3;

// The text of a relation with `rows` rows.
fn text_of(alloc: Global, rows: u64) -> Result<Vec<u8>, Error> {
    let mut text = Vec::new(alloc);
    generate(alloc, rows, &mut Real::new(&mut text))?;
    Ok(text)
}

// How many records `csv` reads in a text, with the settings of the loader.
fn count_records(alloc: Global, text: &[u8]) -> Result<u64, Error> {
    let mut reader = ReaderBuilder::new()
        .has_headers(false)
        .flexible(true)
        .from_reader(alloc, text);
    let mut line = ByteRecord::new(alloc);
    for records in 0..u64::MAX {
        match reader.read_byte_record(&mut line) {
            Ok(true) => {}
            Ok(false) => return Ok(records),
            Err(_) => bail!("csv does not read the text"),
        }
    }
    Ok(u64::MAX)
}

// Loads a relation from a text, and answers how many nanoseconds it took.
fn fill<R: Clock>(
    rt: &R,
    alloc: Global,
    database: &mut Database,
    relation: usize,
    text: &[u8],
) -> Result<u64, Error> {
    let catalog = database.catalog().share()?;
    if relation >= catalog.len() {
        bail!("the catalog has no relation {relation}");
    }
    let start = Instant::now(rt)?;
    let loaded = Loader::load(alloc, &catalog, relation, &mut MemoryIn::new(text, None))?;
    let nanos = nanos_since(rt, start)?;
    if database.put(loaded).is_err() {
        bail!("the rows are of another catalog");
    }
    Ok(nanos)
}

// How many nanoseconds it takes to load the largest relation from a text by threads.
fn time_by_threads<R: Clock + Threads + Sync>(
    rt: &R,
    alloc: Global,
    catalog: &Catalog,
    text: &[u8],
) -> Result<u64, Error> {
    if TENK1 >= catalog.len() {
        bail!("the catalog has no relation {TENK1}");
    }
    let mut input = MemoryIn::new(text, None);
    let start = Instant::now(rt)?;
    let _loaded = load_in_threads(rt, alloc, catalog, TENK1, THREADS, &mut input)?;
    nanos_since(rt, start)
}

impl Bench {
    // Generates the text of the two largest relations and loads them, and beside this reads its records with `csv` alone.
    fn load_largest<R: Print + Clock + Threads + Sync>(
        self,
        rt: &R,
        database: &mut Database,
    ) -> Result<(), Error> {
        let start = Instant::now(rt)?;
        let text = text_of(self.alloc, self.rows)?;
        let took = nanos_since(rt, start)?;
        let generating = [Some(took), None, None, None, None, None, None];
        let found = format!(in self.alloc; "{} bytes", text.len())?;
        self.show(rt, "generate tenk1", self.rows, generating, found.as_str())?;
        let first = fill(rt, self.alloc, database, TENK1, text.as_slice())?;
        let second = fill(rt, self.alloc, database, TENK2, text.as_slice())?;
        let mut threads = None;
        let mut reading = None;
        let mut records = 0;
        // in turns, since the machine may be faster at one time than at another
        for _ in 0..LOADS {
            let took = time_by_threads(rt, self.alloc, database.catalog(), text.as_slice())?;
            threads = least(threads, took);
            let start = Instant::now(rt)?;
            records = count_records(self.alloc, text.as_slice())?;
            reading = least(reading, nanos_since(rt, start)?);
        }
        let found = format!(in self.alloc; "{records} records by csv alone")?;
        let loading = [Some(first.min(second)), None, None, None, None, threads, reading];
        self.show(rt, "load tenk1", self.rows, loading, found.as_str())
    }

    /// The relations, two of `self.rows` rows and two of a tenth of them, with the times to generate and to load one.
    pub fn measure_loading<R: Print + Clock + Threads + Sync>(
        self,
        rt: &R,
    ) -> Result<Database, Error> {
        let catalog = Catalog::read(self.alloc, catalog().as_bytes())?;
        let mut database = Database::empty(self.alloc, &catalog)?;
        self.load_largest(rt, &mut database)?;
        let tenth = text_of(self.alloc, self.rows / 10)?;
        fill(rt, self.alloc, &mut database, ONEK, tenth.as_slice())?;
        fill(rt, self.alloc, &mut database, BPRIME, tenth.as_slice())?;
        Ok(database)
    }

    /// Makes the text of the largest relation, by one thread and by four.
    pub fn measure_writing<R: Print + Clock + Threads + Sync>(
        self,
        rt: &R,
        database: &Database,
    ) -> Result<(), Error> {
        if TENK1 >= database.catalog().len() {
            bail!("the catalog has no relation {TENK1}");
        }
        let rows = database.rows(TENK1);
        let names = database.catalog().get(TENK1).names();
        let start = Instant::now(rt)?;
        let text = format_rows(self.alloc, names, rows)?;
        let one = nanos_since(rt, start)?;
        let start = Instant::now(rt)?;
        let shared = rows.slice(self.alloc, 0, rows.len())?;
        let blocks = format_in_threads(rt, self.alloc, THREADS, names, shared)?;
        let four = nanos_since(rt, start)?;
        let mut same = Vec::new(self.alloc);
        if blocks.write_to(&mut Real::new(&mut same)).is_err() || same.as_slice() != text.as_slice() {
            bail!("threads make another text");
        }
        let times = [Some(one), None, None, None, None, Some(four), None];
        let found = format!(in self.alloc; "{} bytes", text.len())?;
        self.show(rt, "write tenk1", self.rows, times, found.as_str())
    }

    /// Tests whether a column of a table is a key, as loading does.
    pub fn measure_key<R: Print + Clock>(
        self,
        rt: &R,
        table: &Table,
        name: &str,
        column: usize,
    ) -> Result<(), Error> {
        if column >= table.types().len() {
            bail!("there is no column {column}");
        }
        let mut nanos = None;
        for _ in 0..self.repeats {
            let start = Instant::now(rt)?;
            if table.first_key_clash(self.alloc, &[column])?.is_some() {
                bail!("two rows agree on {name}");
            }
            nanos = least(nanos, nanos_since(rt, start)?);
        }
        let times = [nanos, None, None, None, None, None, None];
        self.show(rt, name, self.rows, times, "holds")
    }
}
