//! Packets through one ring: how long one takes between two threads, and between two ends in one thread.

use crate::bench::{Bench, least, nanos_since};
use anyhow::{Error, bail};
use std::alloc::{AllocError, Global};
use std::rt::Clock;
use std::sync::{Arc, Wait};
use std::thread::Threads;
use std::time::Instant;
use std::{hint, thread};
use vx_ports::{Body, InPort, OutPort, Packet, Put};
use vx_ports_rings::{RingIn, RingOut, ring_pair};
use vx_rows::Table;
use vx_rows_values::limits::MAX_PACKET_ROWS;
use vx_rows_values::{ColType, Value};
use vx_rows_views::Rows;

const SLACK: u32 = 8;

const ROWS_OF_A_PACKET: usize = 256;

// With more of them the time would be that of fresh memory, where they wait and where they are kept.
const MOST_PACKETS: u64 = 100_000;

// How often an end looks again before it lets other threads run.
const LOOKS: u32 = 100;

// Where the two ends are.
#[derive(Clone, Copy)]
enum Ends {
    InOneThread,
    InTwoThreads,
}

// The rows that all packets share.
fn shared_rows(alloc: Global) -> Result<Arc<Table>, AllocError> {
    let mut table = Table::new(alloc, &[ColType::Int])?;
    for n in 0..ROWS_OF_A_PACKET as i64 {
        table.push(&[Value::Int(n)])?;
    }
    Ok(Arc::new(alloc, table)?)
}

// The packet with this number.
fn packet(alloc: Global, base: &Arc<Table>, number: u32) -> Result<Packet, Error> {
    let rows = Rows::of(alloc, base, 0, base.len())?;
    if rows.is_empty() || rows.len() > MAX_PACKET_ROWS as usize {
        bail!("{} rows are too few or too many for a packet", rows.len());
    }
    Ok(Packet::of_rows(number, 0, 0, rows))
}

// The packets with the numbers below `count`.
fn packets(alloc: Global, base: &Arc<Table>, count: u32) -> Result<Vec<Packet>, Error> {
    let mut packets = Vec::with_capacity(alloc, count as usize)?;
    for number in 0..count {
        packets.push(packet(alloc, base, number)?)?;
    }
    Ok(packets)
}

// Passes the time until the other end did something.
fn wait(looks: u32) {
    if looks.is_multiple_of(LOOKS) {
        thread::yield_now();
    } else {
        hint::spin_loop();
    }
}

// Puts a packet, again while the ring is full. A closed ring gets none.
fn put(rt: &impl Wait, out: &mut RingOut, mut packet: Packet) {
    let mut looks = 0u32;
    for _ in rt.forever() {
        if out.is_closed() {
            return;
        }
        match out.put(packet) {
            Put::Done => return,
            Put::Full(back) | Put::NoMemory(back) => packet = back,
        }
        looks = looks.wrapping_add(1);
        wait(looks);
    }
}

// Takes the next packet, once one waits.
fn take(rt: &impl Wait, input: &mut RingIn) -> Packet {
    let mut looks = 0u32;
    for _ in rt.forever() {
        if let Some(packet) = input.take() {
            return packet;
        }
        looks = looks.wrapping_add(1);
        wait(looks);
    }
    unreachable!()
}

fn put_all(rt: &impl Wait, mut out: RingOut, packets: Vec<Packet>) {
    for packet in packets {
        put(rt, &mut out, packet);
    }
}

// Takes `count` packets, and keeps those that there is room for. It takes them all: a producer would wait for ever on a
// ring that nobody empties.
fn take_all(rt: &impl Wait, mut input: RingIn, count: usize, mut kept: Vec<Packet>) -> Vec<Packet> {
    for _ in 0..count {
        let packet = take(rt, &mut input);
        kept.push(packet).ok();
    }
    kept
}

// Each packet is taken as soon as it was put.
fn through_one_thread(
    rt: &impl Wait,
    mut out: RingOut,
    mut input: RingIn,
    packets: Vec<Packet>,
    mut kept: Vec<Packet>,
) -> Result<Vec<Packet>, AllocError> {
    for packet in packets {
        put(rt, &mut out, packet);
        kept.push(take(rt, &mut input))?;
    }
    Ok(kept)
}

// The consumer is this thread. None where no other could be started.
fn through_two_threads<R: Threads + Wait + Sync>(
    rt: &R,
    out: RingOut,
    input: RingIn,
    packets: Vec<Packet>,
    kept: Vec<Packet>,
) -> Option<Vec<Packet>> {
    let count = packets.len();
    thread::scope(thread::scope_env(), rt, |scope| -> Option<Vec<Packet>> {
        let Ok(producer) = scope.spawn(move || put_all(rt, out, packets)) else {
            return None;
        };
        let kept = take_all(rt, input, count, kept);
        producer.join(rt);
        Some(kept)
    })
}

// Whether these are `count` packets as they were made.
fn are_in_order(packets: Vec<Packet>, count: u32) -> bool {
    let mut next = 0u32;
    for packet in packets {
        let number = packet.exchange();
        let Body::Rows(rows) = packet.into_body() else {
            return false;
        };
        if number != next || rows.len() != ROWS_OF_A_PACKET {
            return false;
        }
        next = next.wrapping_add(1);
    }
    next == count
}

impl Bench {
    // How long `count` packets take through a new ring. Making and dropping them is not in it.
    fn pass<R: Clock + Threads + Wait + Sync>(
        self,
        rt: &R,
        base: &Arc<Table>,
        count: u32,
        ends: Ends,
    ) -> Result<u64, Error> {
        let packets = packets(self.alloc, base, count)?;
        let kept = Vec::with_capacity(self.alloc, packets.len())?;
        let (out, input) = ring_pair(self.alloc, SLACK)?;
        let start = Instant::now(rt)?;
        let passed = match ends {
            Ends::InOneThread => Some(through_one_thread(rt, out, input, packets, kept)?),
            Ends::InTwoThreads => through_two_threads(rt, out, input, packets, kept),
        };
        let nanos = nanos_since(rt, start)?;
        let Some(passed) = passed else {
            bail!("a thread could not be started");
        };
        if !are_in_order(passed, count) {
            bail!("a ring gives other packets than were put");
        }
        Ok(nanos)
    }

    // The least time that `count` packets take.
    fn least_pass<R: Clock + Threads + Wait + Sync>(
        self,
        rt: &R,
        base: &Arc<Table>,
        count: u32,
        ends: Ends,
    ) -> Result<Option<u64>, Error> {
        let mut nanos = None;
        for _ in 0..self.repeats {
            nanos = least(nanos, self.pass(rt, base, count, ends)?);
        }
        Ok(nanos)
    }

    /// Passes packets through a ring: the time is for each of them. It fails where they do not come in order.
    pub fn measure_ring<R: Print + Clock + Threads + Wait + Sync>(
        self,
        rt: &R,
    ) -> Result<(), Error> {
        let base = shared_rows(self.alloc)?;
        let count = self.rows.min(MOST_PACKETS) as u32;
        let one = self.least_pass(rt, &base, count, Ends::InOneThread)?;
        let two = self.least_pass(rt, &base, count, Ends::InTwoThreads)?;
        let found = format!(in self.alloc; "{count} packets in order by one thread and by two")?;
        let times = [one, None, None, None, two, None, None];
        self.show(
            rt,
            "ring, 2 threads",
            u64::from(count),
            times,
            found.as_str(),
        )
    }
}
