//! The columns that queries by hand read.

use crate::relations::{BPRIME, ONEK, TENK1, TENK2};
use anyhow::{Error, bail};
use std::alloc::Global;
use vx_catalog::Database;
use vx_rows::Table;
use vx_rows_values::Cell;

/// A list for each column, whose texts are lent by the database.
#[derive(Drop)]
pub struct Columns<'t> {
    /// What lists of rows are allocated by.
    pub alloc: Global,
    /// unique2 of each relation.
    pub tenk1: Vec<i64>,
    pub tenk2: Vec<i64>,
    pub onek: Vec<i64>,
    pub bprime: Vec<i64>,
    /// Further columns of tenk1.
    pub unique1: Vec<i64>,
    pub one_percent: Vec<i64>,
    pub unique3: Vec<i64>,
    pub stringu1: Vec<&'t str>,
    pub string4: Vec<&'t str>,
}

/// The rows of a relation, in one table.
pub fn table_of(alloc: Global, database: &Database, relation: usize) -> Result<Table, Error> {
    if relation >= database.catalog().len() {
        bail!("the catalog has no relation {relation}");
    }
    Ok(database.rows(relation).gathered(alloc)?)
}

fn numbers_of(alloc: Global, table: &Table, column: usize) -> Result<Vec<i64>, Error> {
    if column >= table.types().len() {
        bail!("there is no column {column}");
    }
    let Some(numbers) = table.numbers(column) else {
        bail!("column {column} has no numbers");
    };
    let mut list = Vec::with_capacity(alloc, table.len())?;
    for i in 0..table.len() {
        list.push(numbers.get(i))?;
    }
    Ok(list)
}

fn texts_of<'t>(alloc: Global, table: &'t Table, column: usize) -> Result<Vec<&'t str>, Error> {
    if column >= table.types().len() {
        bail!("there is no column {column}");
    }
    let mut list = Vec::with_capacity(alloc, table.len())?;
    for i in 0..table.len() {
        if let Cell::Text(text) = table.cell(i, column) {
            list.push(text)?;
        }
    }
    Ok(list)
}

impl<'t> Columns<'t> {
    /// The columns of a database.
    pub fn of(alloc: Global, database: &Database, tenk1: &'t Table) -> Result<Columns<'t>, Error> {
        Ok(Columns {
            alloc,
            tenk1: numbers_of(alloc, tenk1, 1)?,
            tenk2: numbers_of(alloc, &table_of(alloc, database, TENK2)?, 1)?,
            onek: numbers_of(alloc, &table_of(alloc, database, ONEK)?, 1)?,
            bprime: numbers_of(alloc, &table_of(alloc, database, BPRIME)?, 1)?,
            unique1: numbers_of(alloc, tenk1, 0)?,
            one_percent: numbers_of(alloc, tenk1, 6)?,
            unique3: numbers_of(alloc, tenk1, 10)?,
            stringu1: texts_of(alloc, tenk1, 13)?,
            string4: texts_of(alloc, tenk1, 15)?,
        })
    }
}
