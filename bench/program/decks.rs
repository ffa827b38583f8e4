//! Draws from one deck: how long one takes, by one thread and by four at once.

ghost use Rattle.vx_morsel_decks.specs.Seats.{IsSeatOf};

use crate::bench::{Bench, least, nanos_since};
use anyhow::{Error, bail};
use std::rt::Clock;
use std::thread;
use std::thread::Threads;
use std::time::Instant;
use vx_morsel_decks::{DeckSeat, SharedDeck};

const NUMBERS_OF_A_ROW: u64 = 10;

// The most that a deck may have.
const MOST_NUMBERS: u64 = 100_000_000;

// What is the same of equal bags of numbers: how many there are, their sum, and that of their squares.
#[derive(Clone, Copy, Default)]
struct Tally {
    count: u64,
    sum: u64,
    squares: u64,
}

impl Tally {
    // Of 0, 1, and so on, up to a number that is not among them.
    fn below(numbers: u64) -> Tally {
        let mut tally = Tally::default();
        for number in 0..numbers {
            tally.add(number);
        }
        tally
    }

    fn add(&mut self, number: u64) {
        self.count = self.count.wrapping_add(1);
        self.sum = self.sum.wrapping_add(number);
        self.squares = self.squares.wrapping_add(number.wrapping_mul(number));
    }

    fn join(&mut self, other: Tally) {
        self.count = self.count.wrapping_add(other.count);
        self.sum = self.sum.wrapping_add(other.sum);
        self.squares = self.squares.wrapping_add(other.squares);
    }

    fn agrees(self, other: Tally) -> bool {
        self.count == other.count && self.sum == other.sum && self.squares == other.squares
    }
}

// Draws for `seat` until it met the end of a deck with `numbers` numbers.
fn draw_all(deck: &SharedDeck, mut seat: DeckSeat, numbers: u64) -> Tally
    requires { IsSeatOf deck.now seat }
{
    let mut tally = Tally::default();
    for _ in 0..numbers {
        let Some(number) = deck.draw(&mut seat) else {
            return tally;
        };
        tally.add(number);
    }
    tally
}

impl Bench {
    // How long `seats` seats, each in a thread of its own, take for all `numbers` numbers of a new deck.
    fn deal<R: Clock + Threads + Sync>(
        self,
        rt: &R,
        numbers: u64,
        seats: u32,
    ) -> Result<u64, Error> {
        if numbers > MOST_NUMBERS || seats == 0 || seats > 64 {
            bail!("a deck has not so many numbers or seats");
        }
        let (deck, seats) = SharedDeck::new(self.alloc, numbers, seats)?;
        let start = Instant::now(rt)?;
        let tallies = thread::map_vec(rt, seats, &|seat: DeckSeat| draw_all(&deck, seat, numbers))?;
        let nanos = nanos_since(rt, start)?;
        let mut drawn = Tally::default();
        for tally in tallies {
            drawn.join(tally);
        }
        if !drawn.agrees(Tally::below(numbers)) {
            bail!("the seats of a deck drew other numbers than it has");
        }
        Ok(nanos)
    }

    // The least time of all draws.
    fn least_deal<R: Clock + Threads + Sync>(
        self,
        rt: &R,
        numbers: u64,
        seats: u32,
    ) -> Result<Option<u64>, Error> {
        let mut nanos = None;
        for _ in 0..self.repeats {
            nanos = least(nanos, self.deal(rt, numbers, seats)?);
        }
        Ok(nanos)
    }

    /// Draws all numbers of a deck: the time is for each of them. It fails where one is not drawn just once.
    pub fn measure_deck<R: Print + Clock + Threads + Sync>(self, rt: &R) -> Result<(), Error> {
        let numbers = self.rows.saturating_mul(NUMBERS_OF_A_ROW).min(MOST_NUMBERS);
        let one = self.least_deal(rt, numbers, 1)?;
        let four = self.least_deal(rt, numbers, 4)?;
        let found = format!(in self.alloc;
            "{numbers} numbers drawn once by one thread and by four"
        )?;
        let times = [None, None, None, None, one, four, None];
        self.show(rt, "deck, 1 and 4 threads", numbers, times, found.as_str())
    }
}
