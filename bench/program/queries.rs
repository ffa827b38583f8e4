//! Queries over the relations: serial, by workers in rounds and in threads, and by hand.

use crate::bench::{Bench, Times, least, nanos_since};
use crate::by_hand::Answer;
use crate::columns::Columns;
use crate::digest::Digest;
use anyhow::{Error, bail};
use std::alloc::{AllocError, Global};
use std::rt::Clock;
use std::sync::Wait;
use std::thread::Threads;
use std::time::Instant;
use vx_catalog::Database;
use vx_check_rules::{CheckedPlan, check};
use vx_exchange::ByteRouter;
use vx_exec::run_rounds;
use vx_exec_parallel::{Threading, run_threads};
use vx_exec_runs::RunOutcome;
use vx_exec_setup::{RunCounts, Setup};
use vx_exec_threads::Free;
use vx_exec_watch::Unwatched;
use vx_plan::{erase, resolve};
use vx_plan_json::Plan;
use vx_plan_nodes::{StandardFunctions, TypedPlan};
use vx_serial::eval;
use vx_wisconsin::plan;

// What is asked.
#[derive(Clone, Copy)]
enum Subject {
    // A query of the benchmark.
    Query(u32),
    // The rows of tenk1 with unique2 below a number.
    Below(u64),
    // The same rows, where a function compares.
    Compared(u64),
    // The sum of unique1 and unique2 of each row of tenk1.
    Sums,
    // The rows of tenk1 whose stringu1 begins with AAAAA.
    Starting,
}

// The text with which stringu1 begins in the rows of `Subject::Starting`.
const FRONT: &str = "AAAAA";

// How a query is answered.
#[derive(Clone, Copy)]
enum Way {
    Serial,
    Workers(u32),
    Threads(u32),
    ByHand,
}

// What a way gave, and how many nanoseconds it took.
type Outcome = (Digest, u64);

// A query over the relations, ready to be answered each way.
#[derive(Drop)]
struct Query<'t> {
    subject: Subject,
    plan: CheckedPlan,
    // The plan without its exchanges.
    erased: TypedPlan,
    // The rows of a packet, and of a morsel, and how many packets a producer may run ahead.
    packet: u32,
    morsel: u32,
    slack: u32,
    database: &'t Database,
    columns: &'t Columns<'t>,
}

impl Subject {
    fn name(self, alloc: Global) -> Result<String, AllocError> {
        match self {
            Subject::Query(number) => format!(in alloc; "query {number}"),
            Subject::Below(bound) => format!(in alloc; "unique2 < {bound}"),
            Subject::Compared(bound) => format!(in alloc; "lt(unique2,{bound})"),
            Subject::Sums => String::from_str(alloc, "add(unique1,unique2)"),
            Subject::Starting => format!(in alloc; "starts_with(stringu1)"),
        }
    }

    // How many rows it reads, where the largest relations have `rows` rows.
    fn rows_read(self, rows: u64) -> u64 {
        match self {
            Subject::Query(3) => rows.saturating_mul(2),
            Subject::Query(4 | 6 | 13) => rows.saturating_add(rows / 10),
            Subject::Query(5) => rows.saturating_mul(2).saturating_add(rows / 10),
            _ => rows,
        }
    }

    // How many workers the largest teams have. Query 5 with 64 would take 257 workers, and a run has 256 at most.
    fn largest_team(self) -> u32 {
        match self {
            Subject::Query(5) => 63,
            _ => 64,
        }
    }

    // Its plan as JSON, where the largest relations have `rows` rows.
    fn text(self, alloc: Global, rows: u64) -> Result<String, AllocError> {
        match self {
            Subject::Query(number) => quartered(alloc, plan(number).unwrap_or(""), rows),
            Subject::Below(bound) => {
                let test = format!(in alloc; "{{\"column\":\"unique2\",\"op\":\"<\",\"value\":{bound}}}")?;
                gathered(alloc, select(alloc, test.as_str())?.as_str())
            }
            Subject::Compared(bound) => {
                let test = format!(in alloc; "{{\"fn\":\"lt\",\"of\":[\"unique2\",{{\"value\":{bound}}}]}}")?;
                gathered(alloc, select(alloc, test.as_str())?.as_str())
            }
            Subject::Sums => gathered(
                alloc,
                "\"op\":\"project\",\"columns\":[{\"fn\":\"add\",\"of\":[\"unique1\",\"unique2\"],\"type\":\"int\",\"as\":\"sum\"}]",
            ),
            Subject::Starting => {
                let test = format!(in alloc; "{{\"fn\":\"starts_with\",\"of\":[\"stringu1\",{{\"value\":\"{FRONT}\"}}]}}")?;
                gathered(alloc, select(alloc, test.as_str())?.as_str())
            }
        }
    }

    // Its rows by hand.
    fn answer<'t>(self, columns: &Columns<'t>) -> Result<Answer<'t>, AllocError> {
        match self {
            Subject::Query(number) => columns.query(number),
            Subject::Below(bound) | Subject::Compared(bound) => {
                let bound = i64::try_from(bound).unwrap_or(i64::MAX);
                columns.selected(i64::MIN, bound.saturating_sub(1))
            }
            Subject::Sums => columns.sums(),
            Subject::Starting => columns.starting(FRONT),
        }
    }
}

// The members of a select with a condition.
fn select(alloc: Global, test: &str) -> Result<String, AllocError> {
    format!(in alloc; "\"op\":\"select\",\"where\":[{test}]")
}

// A plan that gathers what the operator with these members gives of tenk1.
fn gathered(alloc: Global, members: &str) -> Result<String, AllocError> {
    format!(in alloc;
        "{{\"sizes\":[\"many\"],\"root\":{{\"op\":\"exchange\",\"kind\":\"gather\",\"claim\":{{\"part\":\"one\"}},\"input\":{{{members},\"claim\":{{\"part\":\"any\"}},\"input\":{{\"op\":\"scan\",\"relation\":\"tenk1\",\"mode\":\"shared\",\"size\":\"many\",\"claim\":{{\"part\":\"any\"}}}}}}}}}}"
    )
}

// A `plan` whose range is made for 10,000 rows, with the range that gives each of four workers a quarter of `rows` rows.
fn quartered(alloc: Global, plan: &str, rows: u64) -> Result<String, AllocError> {
    let quarters = format!(in alloc; "[{}, {}, {}]", rows / 4, rows / 2, rows / 4 * 3)?;
    plan.replace(alloc, "[2500, 5000, 7500]", quarters.as_str())
}

// The plan of `subject`, which the checker accepts, where the largest relations have `rows` rows.
fn plan_of(
    alloc: Global,
    database: &Database,
    subject: Subject,
    rows: u64,
) -> Result<CheckedPlan, Error> {
    let text = subject.text(alloc, rows)?;
    let plan = Plan::read(alloc, text.as_bytes())?;
    match check(alloc, resolve(alloc, &plan, database.catalog())?) {
        Ok(plan) => Ok(plan),
        Err(refused) => bail!("the checker refuses a plan: {refused}"),
    }
}

impl<'t> Query<'t> {
    // Teams of `workers` workers.
    fn setup(&self, alloc: Global, workers: u32) -> Result<Setup, AllocError> {
        let sizes = vec![in alloc; (String::from_str(alloc, "many")?, workers)]?;
        Ok(Setup::new(sizes, self.packet, self.morsel, self.slack))
    }

    fn by_serial<R: Clock>(&self, rt: &R, alloc: Global) -> Result<Outcome, Error> {
        let start = Instant::now(rt)?;
        let rows = eval(alloc, &StandardFunctions, &self.erased, self.database)?;
        let nanos = nanos_since(rt, start)?;
        Ok((Digest::of(&rows.gathered(alloc)?), nanos))
    }

    fn by_workers<R: Clock>(&self, rt: &R, alloc: Global, workers: u32) -> Result<Outcome, Error> {
        let setup = self.setup(alloc, workers)?;
        let mut unread = RunCounts::unread(alloc);
        let start = Instant::now(rt)?;
        match run_rounds(
            alloc,
            &self.plan,
            self.database,
            &setup,
            &StandardFunctions,
            &ByteRouter,
            u64::MAX,
            &Unwatched,
            &mut unread,
        )? {
            RunOutcome::Done(rows) => {
                let nanos = nanos_since(rt, start)?;
                Ok((Digest::of(&rows.gathered(alloc)?), nanos))
            }
            RunOutcome::Unfinished => bail!("a run does not end"),
        }
    }

    fn by_threads<R: Clock + Threads + Wait + Sync>(
        &self,
        rt: &R,
        alloc: Global,
        workers: u32,
    ) -> Result<Outcome, Error> {
        let setup = self.setup(alloc, workers)?;
        let (router, gate, watch) = (ByteRouter, Free, Unwatched);
        let threading = Threading::new(&router, &gate, &watch);
        let mut unread = RunCounts::unread(alloc);
        let start = Instant::now(rt)?;
        match run_threads(
            rt,
            alloc,
            &self.plan,
            self.database,
            &setup,
            &StandardFunctions,
            &threading,
            &mut unread,
        )? {
            RunOutcome::Done(rows) => {
                let nanos = nanos_since(rt, start)?;
                Ok((Digest::of(&rows.gathered(alloc)?), nanos))
            }
            RunOutcome::Unfinished => bail!("a run does not end"),
        }
    }

    fn by_hand<R: Clock>(&self, rt: &R, alloc: Global) -> Result<Outcome, Error> {
        let start = Instant::now(rt)?;
        let answer = self.subject.answer(self.columns)?;
        let nanos = nanos_since(rt, start)?;
        Ok((answer.digest(self.database), nanos))
    }

    fn once<R: Clock + Threads + Wait + Sync>(
        &self,
        rt: &R,
        alloc: Global,
        way: Way,
    ) -> Result<Outcome, Error> {
        match way {
            Way::Serial => self.by_serial(rt, alloc),
            Way::Workers(workers) => self.by_workers(rt, alloc, workers),
            Way::Threads(workers) => self.by_threads(rt, alloc, workers),
            Way::ByHand => self.by_hand(rt, alloc),
        }
    }
}

impl Bench {
    // The least time of a way to answer a query, which has to give these rows.
    fn time<R: Clock + Threads + Wait + Sync>(
        self,
        rt: &R,
        query: &Query<'_>,
        way: Way,
        wanted: Digest,
    ) -> Result<Option<u64>, Error> {
        let mut nanos = None;
        for _ in 0..self.repeats {
            let (digest, took) = query.once(rt, self.alloc, way)?;
            if !digest.agrees(wanted, query.plan.is_total()) {
                let name = query.subject.name(self.alloc)?;
                bail!("{name} has other rows than by the serial evaluation");
            }
            nanos = least(nanos, took);
        }
        Ok(nanos)
    }

    // The times of each way to answer a query, which has to give these rows.
    fn times<R: Clock + Threads + Wait + Sync>(
        self,
        rt: &R,
        query: &Query<'_>,
        wanted: Digest,
    ) -> Result<Times, Error> {
        let many = query.subject.largest_team();
        Ok([
            self.time(rt, query, Way::Serial, wanted)?,
            self.time(rt, query, Way::Workers(1), wanted)?,
            self.time(rt, query, Way::Workers(4), wanted)?,
            self.time(rt, query, Way::Workers(many), wanted)?,
            self.time(rt, query, Way::Threads(1), wanted)?,
            self.time(rt, query, Way::Threads(4), wanted)?,
            self.time(rt, query, Way::ByHand, wanted)?,
        ])
    }

    // Answers a query each way, and shows what all gave.
    fn measure_query<R: Print + Clock + Threads + Wait + Sync>(
        self,
        rt: &R,
        database: &Database,
        columns: &Columns<'_>,
        subject: Subject,
    ) -> Result<(), Error> {
        let plan = plan_of(self.alloc, database, subject, self.rows)?;
        let query = Query {
            subject,
            erased: erase(self.alloc, plan.plan())?,
            plan,
            packet: self.packet,
            morsel: self.morsel,
            slack: self.slack,
            database,
            columns,
        };
        let (wanted, _) = query.once(rt, self.alloc, Way::Serial)?;
        let times = self.times(rt, &query, wanted)?;
        let name = subject.name(self.alloc)?;
        let found = format!(in self.alloc;
            "{} rows by serial, by run with 1, 4 and {} workers, by teams of 1 and 4 threads, and by hand",
            wanted.rows(),
            subject.largest_team()
        )?;
        self.show(
            rt,
            name.as_str(),
            subject.rows_read(self.rows),
            times,
            found.as_str(),
        )
    }

    // Selections of a hundredth and of all of tenk1, and functions.
    fn measure_selections<R: Print + Clock + Threads + Wait + Sync>(
        self,
        rt: &R,
        database: &Database,
        columns: &Columns<'_>,
    ) -> Result<(), Error> {
        self.measure_query(rt, database, columns, Subject::Below(self.rows / 100))?;
        self.measure_query(rt, database, columns, Subject::Below(self.rows))?;
        self.measure_query(rt, database, columns, Subject::Compared(self.rows / 100))?;
        self.measure_query(rt, database, columns, Subject::Compared(self.rows))?;
        self.measure_query(rt, database, columns, Subject::Sums)?;
        self.measure_query(rt, database, columns, Subject::Starting)
    }

    /// Selections of a hundredth and of all of tenk1, functions, and the queries of the benchmark; or those queries alone that were asked for. It
    /// fails where one way gives other rows.
    pub fn measure_queries<R: Print + Clock + Threads + Wait + Sync>(
        self,
        rt: &R,
        database: &Database,
        columns: &Columns<'_>,
    ) -> Result<(), Error> {
        if self.only == 0 {
            self.measure_selections(rt, database, columns)?;
        }
        for number in 1..14 {
            if self.wants(number) {
                self.measure_query(rt, database, columns, Subject::Query(number))?;
            }
        }
        Ok(())
    }
}
