//! Query 1 of the benchmark by hand, in plain Rust over plain columns: what a program without plans, checker or operators takes end to end.
//!
//!     rustc -O bench/by-hand/columns.rs -o /tmp/columns && /tmp/columns tenk1.csv THREADS > rows.csv
//!
//! It keeps all 16 columns of tenk1, makes the tests that `volcano` makes of the file (widths, numbers of 64 bits, UTF-8, the keys unique1 and unique2, the order
//! unique2), and prints the rows with unique2 below 100. It knows the columns and takes no quotes, which `volcano` does not know of the file beforehand.

use std::fs::File;
use std::io::Write;
use std::os::unix::fs::FileExt;
use std::str;
use std::thread;

const NUMBERS: usize = 13;
const TEXTS: usize = 3;

/// The columns of some rows.
struct Columns {
    numbers: Vec<Vec<i64>>,
    bytes: Vec<Vec<u8>>,
    ends: Vec<Vec<usize>>,
}

/// Reads a number and the comma behind it, and returns the number and the place behind both.
fn number_at(text: &[u8], start: usize) -> (i64, usize) {
    let (mut place, negative) = match text[start] {
        b'-' => (start + 1, true),
        b'+' => (start + 1, false),
        _ => (start, false),
    };
    let first = place;
    let mut value: i64 = 0;
    while text[place] != b',' {
        let digit = text[place].wrapping_sub(b'0');
        assert!(digit < 10, "no digit");
        value = value
            .checked_mul(10)
            .and_then(|v| v.checked_add(i64::from(digit)))
            .expect("over 64 bits");
        place += 1;
    }
    assert!(place > first, "a number without digits");
    (if negative { -value } else { value }, place + 1)
}

/// The columns of whole lines.
fn columns_of(text: &[u8]) -> Columns {
    let rows = text.len() / 180 + 16;
    let mut columns = Columns {
        numbers: (0..NUMBERS).map(|_| Vec::with_capacity(rows)).collect(),
        bytes: (0..TEXTS).map(|_| Vec::with_capacity(rows * 52)).collect(),
        ends: (0..TEXTS).map(|_| Vec::with_capacity(rows)).collect(),
    };
    let mut place = 0;
    while place < text.len() {
        for column in &mut columns.numbers {
            let (number, behind) = number_at(text, place);
            column.push(number);
            place = behind;
        }
        for column in 0..TEXTS {
            let last = if column + 1 < TEXTS { b',' } else { b'\n' };
            let field = &text[place..];
            let count = field.iter().position(|byte| *byte == last).expect("an end");
            let field = &field[..count];
            assert!(
                !field.iter().any(|byte| matches!(byte, b'"' | b',' | b'\n')),
                "a quote or another width"
            );
            str::from_utf8(field).expect("UTF-8");
            columns.bytes[column].extend_from_slice(field);
            let end = columns.bytes[column].len();
            columns.ends[column].push(end);
            place += count + 1;
        }
    }
    columns
}

/// Where the first line at or behind a place begins.
fn line_from(file: &File, place: u64, size: u64) -> u64 {
    if place == 0 || place >= size {
        return place.min(size);
    }
    let mut around = vec![0u8; 4096];
    let count = file.read_at(&mut around, place - 1).expect("read");
    let feed = around[..count]
        .iter()
        .position(|byte| *byte == b'\n')
        .expect("a line of 4,096 bytes or less");
    place + feed as u64
}

/// The columns of the lines from one place of the file to another, read in pieces of a megabyte.
fn read_range(file: &File, from: u64, to: u64, size: u64) -> Vec<Columns> {
    let mut pieces = Vec::new();
    let mut text = Vec::new();
    let mut at = from;
    while at < to {
        let end = line_from(file, (at + (1 << 20)).min(to), size).min(to);
        text.resize((end - at) as usize, 0);
        file.read_exact_at(&mut text, at).expect("read");
        pieces.push(columns_of(&text));
        at = end;
    }
    pieces
}

/// Whether all numbers of a column differ.
fn is_key(pieces: &[Columns], column: usize) -> bool {
    let count: usize = pieces.iter().map(|piece| piece.numbers[column].len()).sum();
    let most = pieces
        .iter()
        .flat_map(|piece| piece.numbers[column].iter())
        .copied()
        .max()
        .unwrap_or(0);
    assert!(
        most >= 0 && (most as usize) < 8 * count.max(1),
        "numbers that lie close together"
    );
    let mut seen = vec![0u64; most as usize / 64 + 1];
    for number in pieces.iter().flat_map(|piece| piece.numbers[column].iter()) {
        let (word, bit) = (*number as usize / 64, 1u64 << (*number as usize % 64));
        if seen[word] & bit != 0 {
            return false;
        }
        seen[word] |= bit;
    }
    true
}

fn rises(pieces: &[Columns], column: usize) -> bool {
    let mut last = i64::MIN;
    pieces
        .iter()
        .flat_map(|piece| piece.numbers[column].iter())
        .all(|number| {
            let good = last <= *number;
            last = *number;
            good
        })
}

fn main() {
    let mut words = std::env::args().skip(1);
    let path = words.next().expect("a file");
    let threads: u64 = words
        .next()
        .map_or(1, |word| word.parse().expect("a number of threads"));
    let file = File::open(path).expect("open");
    let size = file.metadata().expect("size").len();
    let mut head = vec![0u8; 4096];
    let count = file.read_at(&mut head, 0).expect("read");
    let start = head[..count]
        .iter()
        .position(|byte| *byte == b'\n')
        .expect("a header") as u64
        + 1;
    let cuts: Vec<u64> = (0..=threads)
        .map(|i| line_from(&file, start.max(size * i / threads), size).max(start))
        .collect();
    let pieces: Vec<Columns> = thread::scope(|scope| {
        let started: Vec<_> = cuts
            .windows(2)
            .map(|cut| {
                let (from, to) = (cut[0], cut[1]);
                let file = &file;
                scope.spawn(move || read_range(file, from, to, size))
            })
            .collect();
        started
            .into_iter()
            .flat_map(|thread| thread.join().expect("a thread"))
            .collect()
    });
    assert!(
        is_key(&pieces, 0) && is_key(&pieces, 1) && rises(&pieces, 1),
        "keys and order"
    );
    let mut out = head[..start as usize].to_vec();
    for piece in &pieces {
        for row in 0..piece.numbers[1].len() {
            if piece.numbers[1][row] < 0 || piece.numbers[1][row] > 99 {
                continue;
            }
            for column in &piece.numbers {
                write!(out, "{},", column[row]).expect("memory");
            }
            for text in 0..TEXTS {
                let from = if row == 0 {
                    0
                } else {
                    piece.ends[text][row - 1]
                };
                out.extend_from_slice(&piece.bytes[text][from..piece.ends[text][row]]);
                out.push(if text + 1 < TEXTS { b',' } else { b'\n' });
            }
        }
    }
    std::io::stdout().write_all(&out).expect("write");
}
