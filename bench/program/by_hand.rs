//! The queries by hand: loops over plain columns, with the maps of the standard library. Rows of relations are answered by
//! their positions, as the evaluator shares the rows of its tables.

use crate::columns::Columns;
use crate::digest::Digest;
use crate::relations::{BPRIME, ONEK, TENK1, TENK2};
use std::alloc::{AllocError, Global};
use std::collections::{HashMap, HashSet};
use vx_catalog::Database;
use vx_rows_values::Cell;

/// The rows of a query.
#[derive(Drop)]
pub enum Answer<'t> {
    /// Rows of relations side by side: the number of each relation with the positions of its rows.
    Rows(Vec<(usize, Vec<usize>)>),
    /// Numbers, each beside a text.
    Labelled(Vec<(i64, &'t str)>),
    /// Numbers, each beside another.
    Pairs(Vec<(i64, i64)>),
    /// Numbers.
    Numbers(Vec<i64>),
    /// One number, or no row.
    Single(Option<i64>),
}

// Where a number stands, and what belongs to it.
type Places = HashMap<i64, usize>;

type Numbers = HashMap<i64, i64>;

// The position of each number up to a last one.
fn places_of(alloc: Global, numbers: &[i64], last: i64) -> Result<HashMap<i64, usize>, AllocError> {
    let mut places = HashMap::new(alloc);
    for (i, number) in numbers.iter().enumerate() {
        if *number <= last {
            places.insert(*number, i)?;
        }
    }
    Ok(places)
}

// The first position from `start` on that has no smaller number.
fn first_from(numbers: &[i64], start: usize, least: i64) -> usize {
    for i in start..numbers.len() {
        if numbers[i] >= least {
            return i;
        }
    }
    numbers.len()
}

// The least number at each key.
fn least_of_keys(alloc: Global, keys: &[i64], numbers: &[i64]) -> Result<Numbers, AllocError> {
    let mut least: Numbers = HashMap::new(alloc);
    for (key, number) in keys.iter().zip(numbers) {
        let kept = least.entry(*key)?.or_insert(*number);
        *kept = (*number).min(*kept);
    }
    Ok(least)
}

// The sum of the numbers at each key.
fn sums_of_keys(alloc: Global, keys: &[i64], numbers: &[i64]) -> Result<Numbers, AllocError> {
    let mut sums: Numbers = HashMap::new(alloc);
    for (key, number) in keys.iter().zip(numbers) {
        let sum = sums.entry(*key)?.or_insert(0);
        *sum = sum.wrapping_add(*number);
    }
    Ok(sums)
}

// The entries of a map by their keys.
fn sorted<'t>(alloc: Global, map: &Numbers) -> Result<Answer<'t>, AllocError> {
    let mut entries = Vec::with_capacity(alloc, map.len())?;
    for (key, number) in map.iter() {
        entries.push((*key, *number))?;
    }
    entries.sort_unstable();
    Ok(Answer::Pairs(entries))
}

// Numbers beside texts, each pair once.
fn distinct<'t>(
    alloc: Global,
    numbers: &[i64],
    texts: &[&'t str],
) -> Result<Answer<'t>, AllocError> {
    let mut seen = HashSet::new(alloc);
    let mut pairs = Vec::new(alloc);
    for (number, text) in numbers.iter().zip(texts) {
        if seen.insert((*number, *text))? {
            pairs.push((*number, *text))?;
        }
    }
    Ok(Answer::Labelled(pairs))
}

impl<'t> Columns<'t> {
    /// The rows of tenk1 with unique2 from one number to another.
    pub fn selected(&self, least: i64, last: i64) -> Result<Answer<'t>, AllocError> {
        let mut positions = Vec::new(self.alloc);
        for (i, number) in self.tenk1.iter().enumerate() {
            if least <= *number && *number <= last {
                positions.push(i)?;
            }
        }
        Ok(Answer::Rows(vec![in self.alloc; (TENK1, positions)]?))
    }

    /// The sum of unique1 and unique2 of each row of tenk1.
    pub fn sums(&self) -> Result<Answer<'t>, AllocError> {
        let mut sums = Vec::with_capacity(self.alloc, self.tenk1.len())?;
        for (one, two) in self.unique1.iter().zip(self.tenk1.as_slice()) {
            sums.push(one.wrapping_add(*two))?;
        }
        Ok(Answer::Numbers(sums))
    }

    /// The rows of tenk1 whose stringu1 begins with a text.
    pub fn starting(&self, front: &str) -> Result<Answer<'t>, AllocError> {
        let mut positions = Vec::new(self.alloc);
        for (i, text) in self.stringu1.iter().enumerate() {
            if text.starts_with(front) {
                positions.push(i)?;
            }
        }
        Ok(Answer::Rows(vec![in self.alloc; (TENK1, positions)]?))
    }

    // tenk1 with the rows of another relation up to a last unique2 that have the same.
    fn hash_joined(
        &self,
        other: usize,
        numbers: &[i64],
        last: i64,
    ) -> Result<Answer<'t>, AllocError> {
        let places = places_of(self.alloc, numbers, last)?;
        let mut left = Vec::new(self.alloc);
        let mut right = Vec::new(self.alloc);
        for (i, number) in self.tenk1.iter().enumerate() {
            if let Some(place) = places.get(number) {
                left.push(i)?;
                right.push(*place)?;
            }
        }
        Ok(Answer::Rows(vec![in self.alloc; (TENK1, left), (other, right)]?))
    }

    // The rows of tenk1, tenk2 and onek with the same unique2, below 1000 in the first two.
    fn hash_joined_twice(&self) -> Result<Answer<'t>, AllocError> {
        let seconds = places_of(self.alloc, self.tenk2.as_slice(), 999)?;
        let thirds = places_of(self.alloc, self.onek.as_slice(), i64::MAX)?;
        let mut left = Vec::new(self.alloc);
        let mut middle = Vec::new(self.alloc);
        let mut right = Vec::new(self.alloc);
        for (i, number) in self.tenk1.iter().enumerate() {
            if *number > 999 {
                continue;
            }
            if let (Some(second), Some(third)) = (seconds.get(number), thirds.get(number)) {
                left.push(i)?;
                middle.push(*second)?;
                right.push(*third)?;
            }
        }
        Ok(Answer::Rows(vec![in self.alloc; (TENK1, left), (TENK2, middle), (ONEK, right)]?))
    }

    // The rows of tenk1 and bprime with the same unique2, on which both are sorted.
    fn merge_joined(&self) -> Result<Answer<'t>, AllocError> {
        let others = self.bprime.as_slice();
        let mut left = Vec::new(self.alloc);
        let mut right = Vec::new(self.alloc);
        let mut place = 0usize;
        for (i, number) in self.tenk1.iter().enumerate() {
            place = first_from(others, place, *number);
            if others.get(place) == Some(number) {
                left.push(i)?;
                right.push(place)?;
            }
        }
        Ok(Answer::Rows(vec![in self.alloc; (TENK1, left), (BPRIME, right)]?))
    }

    /// The rows of a query of the benchmark; no row where it has none of this number.
    pub fn query(&self, number: u32) -> Result<Answer<'t>, AllocError> {
        let keys = self.one_percent.as_slice();
        let numbers = self.unique3.as_slice();
        match number {
            1 => self.selected(0, 99),
            2 => self.selected(792, 1791),
            3 => self.hash_joined(TENK2, self.tenk2.as_slice(), 999),
            4 => self.hash_joined(BPRIME, self.bprime.as_slice(), i64::MAX),
            5 => self.hash_joined_twice(),
            6 | 13 => self.merge_joined(),
            7 => distinct(self.alloc, keys, self.string4.as_slice()),
            8 => distinct(
                self.alloc,
                self.unique1.as_slice(),
                self.stringu1.as_slice(),
            ),
            9 => Ok(Answer::Single(self.tenk1.iter().copied().min())),
            10 => sorted(self.alloc, &least_of_keys(self.alloc, keys, numbers)?),
            11 | 12 => sorted(self.alloc, &sums_of_keys(self.alloc, keys, numbers)?),
            _ => Ok(Answer::Single(None)),
        }
    }
}

// Adds the row of a relation at one of its positions.
fn add_picked(digest: &mut Digest, database: &Database, relation: usize, position: usize) {
    if relation < database.catalog().len() && position < database.rows(relation).len() {
        let rows = database.rows(relation);
        for column in 0..rows.types().len() {
            match rows.cell(position, column) {
                Cell::Int(number) => digest.add_number(number),
                Cell::Text(text) => digest.add_text(text),
            }
        }
    }
}

impl<'t> Answer<'t> {
    fn len(&self) -> usize {
        match self {
            Answer::Rows(parts) => parts.first().map_or(0, |part| part.1.len()),
            Answer::Labelled(pairs) => pairs.len(),
            Answer::Pairs(pairs) => pairs.len(),
            Answer::Numbers(numbers) => numbers.len(),
            Answer::Single(number) => number.iter().count(),
        }
    }

    fn add_row(&self, digest: &mut Digest, database: &Database, i: usize) {
        match self {
            Answer::Rows(parts) => {
                for (relation, positions) in parts {
                    add_picked(
                        digest,
                        database,
                        *relation,
                        positions.get(i).copied().unwrap_or(0),
                    );
                }
            }
            Answer::Labelled(pairs) => {
                if let Some((number, text)) = pairs.get(i) {
                    digest.add_number(*number);
                    digest.add_text(text);
                }
            }
            Answer::Pairs(pairs) => {
                if let Some((key, number)) = pairs.get(i) {
                    digest.add_number(*key);
                    digest.add_number(*number);
                }
            }
            Answer::Numbers(numbers) => digest.add_number(numbers.get(i).copied().unwrap_or(0)),
            Answer::Single(number) => digest.add_number(number.unwrap_or(0)),
        }
    }

    /// What the rows are compared by, where rows of relations are rows of this database.
    pub fn digest(&self, database: &Database) -> Digest {
        let mut digest = Digest::default();
        for i in 0..self.len() {
            self.add_row(&mut digest, database, i);
            digest.end_row();
        }
        digest
    }
}
