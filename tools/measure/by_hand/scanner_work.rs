//! Work at a scanner, each slot of which owns output 150 of its target.

use std::hint::black_box;

use crate::answer::{Answer, Delivery};
use crate::scanner::{Profile, Scanner, SlotProfile};
use crate::Taker;

const TARGET: u32 = 0xC0A8_010A;

/// The reply to RegisterSession, with session 1.
const REGISTERED: [u8; 28] = [0x65, 0, 4, 0, 1, 0, 0, 0, 0, 0, 0, 0, 0, 0, 0, 0, 0, 0, 0, 0, 0, 0, 0, 0, 1, 0, 0, 0];

/// The reply to the first request, which opens the first slot.
const OPENED: [u8; 70] = [
    0x6F, 0, 0x2E, 0, 1, 0, 0, 0, 0, 0, 0, 0, 1, 0, 0, 0, 0, 0, 0, 0, 0, 0, 0, 0, 0, 0, 0, 0, 0, 0, 2, 0, 0, 0, 0, 0,
    0xB2, 0, 0x1E, 0, 0xD4, 0, 0, 0, 1, 0, 0, 0x10, 1, 0, 0, 0x20, 1, 0, 0x34, 0x12, 0x78, 0x56, 0x34, 0x12, 0x10,
    0x27, 0, 0, 0x10, 0x27, 0, 0, 0, 0,
];

/// The reply to a Forward_Close of the first request.
const CLOSED: [u8; 54] = [
    0x6F, 0, 0x1E, 0, 1, 0, 0, 0, 0, 0, 0, 0, 1, 0, 0, 0, 0, 0, 0, 0, 0, 0, 0, 0, 0, 0, 0, 0, 0, 0, 2, 0, 0, 0, 0, 0,
    0xB2, 0, 0xE, 0, 0xCE, 0, 0, 0, 1, 0, 0x34, 0x12, 0x78, 0x56, 0x34, 0x12, 0, 0,
];

fn slot(produced: u32) -> SlotProfile {
    SlotProfile {
        target: TARGET,
        is_owner: true,
        config: None,
        consumed: 150,
        produced,
        out_len: 4,
        in_len: 4,
        o_t_rpi: 10_000,
        t_o_rpi: 10_000,
        multiplier: 2,
    }
}

/// A datagram of this number for the slot of this id, with four bytes of data.
fn numbered(id: u8, number: u32) -> [u8; 24] {
    let [n, o, p, q] = number.to_le_bytes();
    [2, 0, 2, 0x80, 8, 0, id, 0, 0, 0x20, n, o, p, q, 0xB1, 0, 6, 0, n, o, 9, 8, 7, 6]
}

/// Both intervals of a target's replies, in microseconds.
#[derive(Clone, Copy)]
struct Intervals {
    o_t: u32,
    t_o: u32,
}

const SHORT: Intervals = Intervals { o_t: 10_000, t_o: 10_000 };
const LONG: Intervals = Intervals { o_t: 100_000, t_o: 10_000_000 };

/// A reply of this request number, serial number and id, which opens a slot.
fn opened(request: u32, number: u32, intervals: Intervals) -> [u8; 70] {
    let mut bytes = OPENED;
    bytes[12..16].copy_from_slice(&request.to_le_bytes());
    bytes[44..47].copy_from_slice(&number.to_le_bytes()[..3]);
    bytes[48..51].copy_from_slice(&number.to_le_bytes()[..3]);
    bytes[52..54].copy_from_slice(&number.to_le_bytes()[..2]);
    bytes[60..64].copy_from_slice(&intervals.o_t.to_le_bytes());
    bytes[64..68].copy_from_slice(&intervals.t_o.to_le_bytes());
    bytes
}

/// A scanner, its last answer, and who takes it.
struct Work<'a> {
    device: Box<Scanner>,
    answer: Answer,
    taker: &'a mut Taker,
}

impl Work<'_> {
    /// Work at a scanner with so many slots, without a session.
    fn new(size: u8, taker: &mut Taker) -> Work<'_> {
        let profile = Profile {
            incarnation: 0x20,
            vendor: 0x1234,
            serial: 0x1234_5678,
            open_timeout: 2_000,
            retry: 3_000,
            slots: (0..size as u32).map(slot).collect(),
        };
        Work { device: Scanner::new(black_box(profile)), answer: Answer::default(), taker }
    }

    /// Work at a scanner with so many slots, each of which is established, behind each of which so many milliseconds pass.
    fn established(size: u8, intervals: Intervals, pause: u32, taker: &mut Taker) -> Work<'_> {
        let mut work = Work::new(size, taker);
        work.device.stream_opened(0, TARGET, &mut work.answer);
        work.taker.take(&work.answer);
        work.frame(&REGISTERED);
        for at in 0..size {
            work.start(at, at as u32 + 1, at as u32 + 1, intervals);
            if pause > 0 {
                work.tick(pause);
            }
        }
        work.taker.forget();
        work
    }

    fn frame(&mut self, bytes: &[u8]) {
        self.device.frame(0, bytes, &mut self.answer);
        self.taker.take(&self.answer);
    }

    /// A slot is started. The reply of this request's number and this opening's number opens it.
    fn start(&mut self, slot: u8, request: u32, number: u32, intervals: Intervals) {
        self.device.start(slot as usize, &mut self.answer);
        self.taker.take(&self.answer);
        self.frame(&opened(request, number, intervals));
    }

    fn tick(&mut self, ms: u32) {
        self.device.tick(ms, &mut self.answer);
        self.taker.take(&self.answer);
    }

    /// So many ticks of this length.
    fn ticks(&mut self, ms: u32, count: u32) {
        (0..count).for_each(|_| self.tick(ms));
    }

    /// Datagrams for all slots in turn.
    fn deliveries(&mut self, size: u8, count: u32) {
        let (mut slot, mut number) = (0, 0);
        for _ in 0..count {
            if slot >= size {
                (slot, number) = (0, number + 1);
            }
            slot += 1;
            let delivery = self.device.deliver(TARGET, &numbered(slot, number));
            assert!(delivery == Delivery::Applied, "a datagram is not applied");
        }
    }

    fn writes(&mut self, slot: u8, count: u32) {
        for _ in 0..count {
            self.device.write(slot as usize, &[9, 8, 7, 6], &mut self.answer);
            self.taker.take(&self.answer);
        }
    }

    /// A slot is stopped and started again, with both replies.
    fn restarts(&mut self, slot: u8, count: u32) {
        let (mut request, mut closed) = (65u32, CLOSED);
        for round in 0..count {
            self.device.stop(slot as usize, &mut self.answer);
            self.taker.take(&self.answer);
            closed[12..16].copy_from_slice(&request.to_le_bytes());
            self.frame(&closed);
            self.start(slot, request + 1, 65 + round, SHORT);
            request += 2;
        }
    }
}

/// Ticks of no time at a scanner whose slots are started and wait for a session.
fn waiting(size: u8, count: u32, taker: &mut Taker) {
    let mut work = Work::new(size, taker);
    for slot in 0..size {
        work.device.start(slot as usize, &mut work.answer);
        work.taker.take(&work.answer);
    }
    work.taker.forget();
    work.ticks(0, count);
}

pub fn run(work: &str, size: u8, count: u32, taker: &mut Taker) {
    match work {
        "slot-datagram" => Work::established(size, SHORT, 0, taker).deliveries(size, count),
        "slot-production" => Work::established(size, SHORT, 0, taker).ticks(10, count),
        "slot-reversed" => Work::established(size, LONG, 99, taker).ticks(100, count),
        "slot-idle" => Work::established(size, SHORT, 0, taker).ticks(0, count),
        "slot-waiting" => waiting(size, count, taker),
        "slot-restart" => Work::established(64, SHORT, 0, taker).restarts(size - 1, count),
        "slot-write" => Work::established(64, SHORT, 0, taker).writes(size - 1, count),
        _ => panic!("an unknown work"),
    }
}
