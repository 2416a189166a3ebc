//! Work at an adapter with eight inputs, and with one output or eight.

use std::hint::black_box;

use crate::adapter::{Action, Adapter, Input, Output, Profile};
use crate::answer::{Answer, Delivery};
use crate::Taker;

const PEER: u32 = 0xC0A8_0114;

/// A Forward_Open of an exclusive owner of output 150 for input 100, O->T at 10 s with the longest time-out, T->O at
/// 10 ms.
const OWN: [u8; 50] = [
    0x54, 2, 0x20, 6, 0x24, 1, 0x0A, 0x0E, 0, 0, 0, 0, 1, 0, 0, 0x20, 1, 0, 0x34, 0x12, 0x78, 0x56, 0x34, 0x12, 7, 0,
    0, 0, 0x80, 0x96, 0x98, 0, 0x0A, 0x48, 0x10, 0x27, 0, 0, 6, 0x48, 1, 4, 0x20, 4, 0x24, 0x97, 0x2C, 0x96, 0x2C,
    0x64,
];

/// A Forward_Close of the connection of serial number 0.
const CLOSE: [u8; 24] = [
    0x4E, 2, 0x20, 6, 0x24, 1, 0x0A, 0x0E, 0, 0, 0x34, 0x12, 0x78, 0x56, 0x34, 0x12, 3, 0, 0x20, 4, 0x24, 0x97, 0x2C,
    0x98,
];

/// An adapter, its last answer, and who takes it.
struct Work<'a> {
    device: Box<Adapter>,
    answer: Answer,
    taker: &'a mut Taker,
}

/// An input-only opening of input 100 by the peer at this place, with this T->O interval in microseconds.
fn opening(place: u8, interval: u32) -> [u8; 50] {
    let mut bytes = OWN;
    (bytes[12], bytes[16]) = (place + 2, place + 2);
    (bytes[32], bytes[47]) = (2, 0x98);
    bytes[34..38].copy_from_slice(&interval.to_le_bytes());
    bytes
}

fn closing(place: u8) -> [u8; 24] {
    let mut bytes = CLOSE;
    bytes[8] = place + 2;
    bytes
}

/// An owner's datagram of this number, in run mode, with four bytes of data.
fn datagram(owner: u32, number: u32) -> [u8; 28] {
    let [a, b, c, d] = owner.to_le_bytes();
    let [n, o, p, q] = number.to_le_bytes();
    [2, 0, 2, 0x80, 8, 0, a, b, c, d, n, o, p, q, 0xB1, 0, 10, 0, n, o, 1, 0, 0, 0, 9, 8, 7, 6]
}

impl Work<'_> {
    /// Work at an adapter with these outputs, of four bytes each, which have this fault action.
    fn new(outputs: std::ops::Range<u32>, fault: Action, taker: &mut Taker) -> Work<'_> {
        let outputs = outputs.map(|instance| Output::new(instance, 4, Action::Zero, fault)).collect();
        let inputs = (100..108).map(|instance| Input::new(instance, 4)).collect();
        let profile = Profile {
            incarnation: 0x10,
            node: 0xC0A8_010A,
            mask: 0xFFFF_FF00,
            identity: [1, 12, 7, 2, 3],
            config: Some(151),
            input_only: 152,
            listen_only: 153,
        };
        let device = Adapter::new(black_box(profile), black_box(outputs), black_box(inputs), Vec::new());
        Work { device, answer: Answer::default(), taker }
    }

    /// An adapter with so many connections, behind each of whose openings so many milliseconds pass.
    fn filled(size: u8, interval: u32, pause: u32, taker: &mut Taker) -> Work<'_> {
        let mut work = Work::new(150..151, Action::Zero, taker);
        for place in 0..size {
            work.request(place, &opening(place, interval));
            work.tick(pause);
        }
        work.taker.forget();
        work
    }

    fn request(&mut self, place: u8, bytes: &[u8]) {
        self.device.request(PEER + place as u32, bytes, &mut self.answer);
        assert!(!self.answer.notices.is_empty(), "a request is refused");
        self.taker.take(&self.answer);
    }

    fn tick(&mut self, ms: u32) {
        self.device.tick(ms, &mut self.answer);
        self.taker.take(&self.answer);
    }

    /// So many ticks, behind one of another length.
    fn ticks(&mut self, first: u32, ms: u32, count: u32) {
        self.tick(first);
        (0..count).for_each(|_| self.tick(ms));
    }

    fn write(&mut self, input: u32) {
        self.device.write(input, &[9, 8, 7, 6], &mut self.answer);
        self.taker.take(&self.answer);
    }

    fn deliver(&mut self, peer: u32, id: u32, number: u32) {
        let bytes = datagram(id, number);
        assert!(self.device.deliver(peer, &bytes) == Delivery::Applied, "a datagram is not applied");
    }
}

/// Datagrams of an owner, the last of so many connections.
fn deliveries(size: u8, count: u32, taker: &mut Taker) {
    let mut work = Work::filled(size - 1, 10_000, 0, taker);
    work.request(0, &OWN);
    work.taker.forget();
    (0..count).for_each(|number| work.deliver(PEER, 0x1000_0000 + size as u32, number));
}

/// Datagrams of the owners of so many outputs, in turn.
fn owners(size: u8, count: u32, taker: &mut Taker) {
    let mut work = Work::new(160..168, Action::Hold, taker);
    for place in 0..size {
        let mut bytes = OWN;
        (bytes[12], bytes[16], bytes[47]) = (place + 2, place + 2, 160 + place);
        work.request(place, &bytes);
    }
    work.taker.forget();
    let (mut place, mut number) = (0, 0);
    for _ in 0..count {
        if place >= size as u32 {
            (place, number) = (0, number + 1);
        }
        work.deliver(PEER + place, 0x1000_0001 + place, number);
        place += 1;
    }
}

/// Connections of which each, or every second one, is multicast, in eight groups that share their producers.
fn groups(each: u8, count: u32, taker: &mut Taker) {
    let mut work = Work::new(150..151, Action::Zero, taker);
    for place in 0..64 {
        let mut bytes = opening(place, 10_000);
        if place % each == each - 1 {
            bytes[39] = 0x28;
            bytes[49] = 100 + place / 2 % 8;
        }
        work.request(place, &bytes);
    }
    work.tick(0);
    work.taker.forget();
    work.ticks(10, 10, count);
}

/// Writes of the input of 64 producers, of which the last ones, so many, produce at changes of state.
fn writes(size: u8, count: u32, taker: &mut Taker) {
    let mut work = Work::new(150..151, Action::Zero, taker);
    for place in 0..64 {
        let mut bytes = opening(place, 10_000_000);
        bytes[40] = if place >= 64 - size { 0x11 } else { 1 };
        work.request(place, &bytes);
    }
    work.tick(1);
    work.taker.forget();
    (0..count).for_each(|_| work.write(100));
}

/// Writes of the inputs of so many cyclic producers, up to eight inputs, in turn.
fn inputs(size: u8, count: u32, taker: &mut Taker) {
    let mut work = Work::new(150..151, Action::Zero, taker);
    for place in 0..size {
        let mut bytes = opening(place, 10_000_000);
        bytes[49] = 100 + place % 8;
        work.request(place, &bytes);
    }
    work.tick(1);
    work.taker.forget();
    (0..count).for_each(|number| work.write(100 + number % size.min(8) as u32));
}

/// The last connection is opened, and times out in the fourth of five ticks.
fn time_outs(count: u32, taker: &mut Taker) {
    let mut work = Work::filled(63, 10_000, 0, taker);
    let mut bytes = opening(63, 10_000);
    bytes[24] = 0;
    bytes[28..32].copy_from_slice(&100_000u32.to_le_bytes());
    for _ in 0..count {
        work.request(63, &bytes);
        work.ticks(2_500, 2_500, 4);
    }
}

/// The last connection is opened and closed.
fn openings(count: u32, taker: &mut Taker) {
    let mut work = Work::filled(63, 10_000, 0, taker);
    let (open, close) = (opening(63, 10_000), closing(63));
    for _ in 0..count {
        work.request(63, &open);
        work.request(63, &close);
    }
}

/// A multicast connection and its listeners are opened, and drop with it as it is closed. There are 64 connections.
fn listeners(size: u8, count: u32, taker: &mut Taker) {
    let mut work = Work::filled(63 - size, 10_000, 0, taker);
    let mut bytes: Vec<[u8; 50]> = (63 - size..64).map(|place| opening(place, 10_000)).collect();
    bytes.iter_mut().for_each(|it| it[39] = 0x28);
    bytes[1..].iter_mut().for_each(|it| it[47] = 0x99);
    let close = closing(63 - size);
    for _ in 0..count {
        (63 - size..64).zip(&bytes).for_each(|(place, it)| work.request(place, it));
        work.request(63 - size, &close);
    }
}

pub fn run(work: &str, size: u8, count: u32, taker: &mut Taker) {
    match work {
        "datagram" => deliveries(size, count, taker),
        "owners" => owners(size, count, taker),
        "production" => Work::filled(size, 10_000, 0, taker).ticks(10, 10, count),
        "reversed" => Work::filled(size, 100_000, 99, taker).ticks(100, 100, count),
        "phases" => Work::filled(size, 100_000, 1, taker).ticks(100, 1, count),
        "idle" => Work::filled(size, 10_000_000, 0, taker).ticks(1, 1, count),
        "groups" => groups(size, count, taker),
        "write" => writes(size, count, taker),
        "inputs" => inputs(size, count, taker),
        "time-out" => time_outs(count, taker),
        "opening" => openings(count, taker),
        "listeners" => listeners(size, count, taker),
        _ => panic!("an unknown work"),
    }
}
