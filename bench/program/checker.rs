//! The checker on plans of 999 nodes over a relation of 64 columns, which is sorted on all of them and has all of them as
//! its key: one whose claims follow by the table of claims, and some whose orders follow by what is known of columns.

use crate::bench::{Bench, least, nanos_since};
use anyhow::Error;
use std::alloc::{AllocError, Global};
use std::rt::Clock;
use std::time::Instant;
use vx_catalog_relations::Catalog;
use vx_check_rules::check;
use vx_plan::resolve;
use vx_plan_json::Plan;

const WIDTH: usize = 64;

const NODES: u64 = 999;

// The names of the columns behind commas, each between these texts.
fn columns(alloc: Global, before: &str, behind: &str) -> Result<String, AllocError> {
    let mut text = String::new(alloc);
    for number in 0..WIDTH {
        let comma = if number == 0 { "" } else { "," };
        write!(text, "{comma}{before}c{number:02}{behind}")?;
    }
    Ok(text)
}

// A catalog with the relation.
fn catalog(alloc: Global) -> Result<String, AllocError> {
    let columns = columns(alloc, "{\"name\":\"", "\",\"type\":\"int\"}")?;
    let names = names(alloc)?;
    format!(in alloc;
        "{{\"relations\":[{{\"name\":\"wide\",\"columns\":[{columns}],\"keys\":[{names}],\"order\":{names}}}]}}"
    )
}

// The names of the columns as a list.
fn names(alloc: Global) -> Result<String, AllocError> {
    let names = columns(alloc, "\"", "\"")?;
    format!(in alloc; "[{names}]")
}

// The `input` below `count` selections by this test of the first column, one above the other, with the two claims by turns.
fn selections(
    alloc: Global,
    input: &str,
    test: &str,
    claims: [&str; 2],
    count: usize,
) -> Result<String, AllocError> {
    let mut text = String::from_str(alloc, input)?;
    for number in 0..count {
        let claim = claims[number % 2];
        text = format!(in alloc;
            "{{\"op\":\"select\",\"where\":[{{\"column\":\"c00\",\"op\":\"{test}\",\"value\":0}}],\"claim\":{claim},\"input\":{text}}}"
        )?;
    }
    Ok(text)
}

// A union whose rows are routed.
fn union(alloc: Global, part: &str, left: &str, right: &str) -> Result<String, AllocError> {
    format!(in alloc; "{{\"op\":\"union\",\"claim\":{{{part}}},\"left\":{left},\"right\":{right}}}")
}

// A gather over unions over chains of selections, each of which claims a route and a key of all columns, and one of two
// orders: 32 chains of 30 nodes and one of 6, 32 unions, and the gather.
fn plan(alloc: Global, derive: &str, test: &str, orders: [&str; 2]) -> Result<String, AllocError> {
    let names = names(alloc)?;
    let part = format!(in alloc; "\"part\":{{\"hash\":\"h\",\"columns\":{names}}}")?;
    let listed = format!(in alloc; "\"order\":{names},\"keys\":[{names}]")?;
    let sent = format!(in alloc;
        "{{\"op\":\"exchange\",\"kind\":\"hash\",\"size\":\"many\",\"route\":\"h\",\"columns\":{names},\"merge\":{names},\"claim\":{{{part},{listed}}},\"input\":{{\"op\":\"scan\",\"relation\":\"wide\",\"mode\":\"shared\",\"size\":\"many\",\"claim\":{{{listed}}}}}}}"
    )?;
    let [even, odd] = orders;
    let first = format!(in alloc; "{{{part},\"order\":{even},\"keys\":[{names}]}}")?;
    let second = format!(in alloc; "{{{part},\"order\":{odd},\"keys\":[{names}]}}")?;
    let claims = [first.as_str(), second.as_str()];
    let mut tree = selections(alloc, sent.as_str(), test, claims, 28)?;
    for _ in 0..5 {
        tree = union(alloc, part.as_str(), tree.as_str(), tree.as_str())?;
    }
    let chain = selections(alloc, sent.as_str(), test, claims, 4)?;
    let whole = union(alloc, part.as_str(), tree.as_str(), chain.as_str())?;
    format!(in alloc;
        "{{\"sizes\":[\"many\"],\"derive\":{derive},\"root\":{{\"op\":\"exchange\",\"kind\":\"gather\",\"claim\":{{\"part\":\"one\"}},\"input\":{whole}}}}}"
    )
}

impl Bench {
    // Checks a plan: the time is for each node.
    fn measure_check<R: Print + Clock>(self, rt: &R, line: &str, plan: &str) -> Result<(), Error> {
        let catalog = Catalog::read(self.alloc, catalog(self.alloc)?.as_bytes())?;
        let plan = Plan::read(self.alloc, plan.as_bytes())?;
        let mut nanos = None;
        let mut found = "refused";
        for _ in 0..self.repeats {
            let typed = resolve(self.alloc, &plan, &catalog)?;
            let start = Instant::now(rt)?;
            let answer = check(self.alloc, typed);
            nanos = least(nanos, nanos_since(rt, start)?);
            found = if answer.is_ok() {
                "accepted"
            } else {
                "refused"
            };
        }
        self.show(
            rt,
            line,
            NODES,
            [nanos, None, None, None, None, None, None],
            found,
        )
    }

    /// Checks plans whose claims follow by the table of claims, and by what is known of columns: orders of two and of all
    /// columns, whose first column has one value.
    pub fn measure_checker<R: Print + Clock>(self, rt: &R) -> Result<(), Error> {
        let all = names(self.alloc)?;
        let rest = format!(in self.alloc; "[{}", all.as_str().get(7..).unwrap_or("]"))?;
        let claimed = plan(self.alloc, "false", ">", [all.as_str(), all.as_str()])?;
        self.measure_check(rt, "check a plan, by node", claimed.as_str())?;
        let asked = plan(self.alloc, "true", "=", [all.as_str(), all.as_str()])?;
        self.measure_check(rt, "the same with derive", asked.as_str())?;
        let short = plan(self.alloc, "true", "=", ["[\"c01\"]", "[\"c00\",\"c01\"]"])?;
        self.measure_check(rt, "orders of two columns", short.as_str())?;
        let long = plan(self.alloc, "true", "=", [rest.as_str(), all.as_str()])?;
        self.measure_check(rt, "orders of all columns", long.as_str())
    }
}
