//! A scanner: data, time and the states of its slots. Ids are found by open addressing, due times are in order.

use crate::answer::{Answer, Delivery, Notice};
use crate::datagrams::{is_newer, read_datagram, u16_at, u32_at, Due, Dues, Index, Producer};
use crate::frames::{self, Opened};

/// What a slot is to open: rules 15.8 and 15.9, point to point.
#[derive(Clone)]
pub struct SlotProfile {
    pub target: u32,
    pub is_owner: bool,
    pub config: Option<u32>,
    pub consumed: u32,
    pub produced: u32,
    pub out_len: usize,
    pub in_len: usize,
    pub o_t_rpi: u32,
    pub t_o_rpi: u32,
    pub multiplier: u8,
}

/// The states of a slot, with the standard's numbers.
#[derive(Clone, Copy, PartialEq)]
enum State {
    Idle = 0,
    Opening = 2,
    Established = 3,
    TimedOut = 4,
    Closing = 6,
}

struct Slot {
    target: u32,
    is_owner: bool,
    multiplier: u8,
    is_desired: bool,
    state: State,
    is_fresh: bool,
    serial: u16,
    id: u32,
    /// When its state ends: a deadline, or the end of a wait for a reply.
    until: u64,
    retry_at: u64,
    last: Option<(u32, u16)>,
    watchdog: u64,
    producer: Producer,
    /// An owner's output behind its run/idle header.
    output: Vec<u8>,
    image: Vec<u8>,
    /// Its requests, but for what each one has of its own.
    open_frame: Vec<u8>,
    close_frame: Vec<u8>,
}

impl Slot {
    fn new(profile: &SlotProfile, vendor: u16, serial: u32) -> Slot {
        Slot {
            target: profile.target,
            is_owner: profile.is_owner,
            multiplier: profile.multiplier,
            is_desired: false,
            state: State::Idle,
            is_fresh: false,
            serial: 0,
            id: 0,
            until: 0,
            retry_at: 0,
            last: None,
            watchdog: 0,
            producer: Producer::default(),
            output: vec![0; if profile.is_owner { profile.out_len + 4 } else { 0 }],
            image: vec![0; profile.in_len],
            open_frame: frames::open_frame(profile, vendor, serial),
            close_frame: frames::close_frame(profile, vendor, serial),
        }
    }
}

struct Stream {
    number: u16,
    target: u32,
    session: Option<u32>,
}

pub struct Profile {
    pub incarnation: u8,
    pub vendor: u16,
    pub serial: u32,
    pub open_timeout: u64,
    pub retry: u64,
    pub slots: Vec<SlotProfile>,
}

pub struct Scanner {
    incarnation: u8,
    vendor: u16,
    serial: u32,
    open_timeout: u64,
    retry: u64,
    slots: Vec<Slot>,
    streams: Vec<Stream>,
    /// The requests that wait for a reply, with their slots, in order.
    waiting: Vec<(u64, u8)>,
    ids: Index,
    dues: Dues,
    clock: u64,
    next_id: u32,
    next_serial: u16,
    next_request: u64,
    /// No slot times out, gives up or may open before this.
    next_time: u64,
}

impl Scanner {
    pub fn new(profile: Profile) -> Box<Scanner> {
        Box::new(Scanner {
            incarnation: profile.incarnation,
            vendor: profile.vendor,
            serial: profile.serial,
            open_timeout: profile.open_timeout,
            retry: profile.retry,
            slots: profile.slots.iter().map(|it| Slot::new(it, profile.vendor, profile.serial)).collect(),
            streams: Vec::new(),
            waiting: Vec::new(),
            ids: Index::new(),
            dues: Dues::new(),
            clock: 0,
            next_id: 1,
            next_serial: 1,
            next_request: 1,
            next_time: u64::MAX,
        })
    }

    // DATA

    #[inline(never)]
    pub fn deliver(&mut self, peer: u32, bytes: &[u8]) -> Delivery {
        let Some(datagram) = read_datagram(bytes) else {
            return Delivery::Malformed;
        };
        let slots = &self.slots;
        let is_its = |at: u8| slots[at as usize].id == datagram.id && slots[at as usize].target == peer;
        let Some(at) = self.ids.find(datagram.id as u8, is_its) else {
            return Delivery::UnknownId;
        };
        let slot = &mut self.slots[at as usize];
        if datagram.data.len() != slot.image.len() {
            return Delivery::WrongSize;
        }
        let last = slot.last;
        if last.is_some_and(|(number, _)| !is_newer(datagram.sequence, number)) {
            return Delivery::Old;
        }
        slot.last = Some((datagram.sequence, datagram.count));
        slot.until = self.clock + slot.watchdog;
        self.next_time = self.next_time.min(slot.until);
        if last.is_some_and(|(_, count)| count == datagram.count) {
            return Delivery::Duplicate;
        }
        slot.image.copy_from_slice(datagram.data);
        Delivery::Applied
    }

    #[inline(never)]
    pub fn write(&mut self, at: usize, bytes: &[u8], answer: &mut Answer) {
        answer.begin();
        match self.slots.get_mut(at) {
            Some(slot) if slot.is_owner && slot.output.len() == bytes.len() + 4 => {
                slot.output[4..].copy_from_slice(bytes);
                slot.is_fresh = true;
            }
            _ => answer.is_done = false,
        }
    }

    // TIME

    #[inline(never)]
    pub fn tick(&mut self, ms: u32, answer: &mut Answer) {
        answer.begin();
        let clock = self.clock + ms as u64;
        if ms > 60_000 || clock > 1 << 48 {
            answer.is_done = false;
            return;
        }
        self.clock = clock;
        if clock >= self.next_time {
            self.pass(answer);
        }
        if self.dues.is_due(clock) {
            self.produce(answer);
        }
    }

    #[inline(never)]
    fn produce(&mut self, answer: &mut Answer) {
        let clock = self.clock;
        while let Some(due) = self.dues.first(clock) {
            let slot = &mut self.slots[due.place as usize];
            let front = slot.producer.next(slot.is_fresh);
            slot.is_fresh = false;
            answer.datagram(slot.target, slot.target, &[], front, &slot.output);
            slot.producer.pace(clock);
            slot.producer.listed = slot.producer.due;
            self.dues.again(Due { at: slot.producer.due, ..due });
        }
    }

    /// Time-outs by deadline, replies that did not come, and slots that may open again.
    #[inline(never)]
    fn pass(&mut self, answer: &mut Answer) {
        let clock = self.clock;
        let is_over = |slot: &Slot| slot.state == State::Established && slot.until <= clock;
        let over = self.slots.iter().enumerate().filter(|(_, slot)| is_over(slot));
        let mut over: Vec<(u64, usize)> = over.map(|(at, slot)| (slot.until, at)).collect();
        over.sort_unstable();
        for (_, at) in over {
            self.slots[at].retry_at = clock + self.retry;
            self.enter(at, State::TimedOut, 0, answer);
        }
        for at in 0..self.slots.len() {
            let slot = &mut self.slots[at];
            if slot.until <= clock && matches!(slot.state, State::Opening | State::Closing) {
                if slot.state == State::Opening {
                    slot.retry_at = clock + self.retry;
                }
                self.enter(at, State::Idle, 0, answer);
            }
        }
        (0..self.slots.len()).for_each(|at| self.try_open(at, answer));
        self.next_time = self.slots.iter().map(|slot| self.time_of(slot)).min().unwrap_or(u64::MAX);
    }

    /// When a slot is next to be looked at.
    fn time_of(&self, slot: &Slot) -> u64 {
        match slot.state {
            State::Established | State::Opening | State::Closing => slot.until,
            _ if slot.is_desired && self.session(slot.target).is_some() => slot.retry_at,
            _ => u64::MAX,
        }
    }

    // SLOTS

    fn session(&self, target: u32) -> Option<u32> {
        self.streams.iter().find(|it| it.target == target)?.session
    }

    fn enter(&mut self, at: usize, state: State, until: u64, answer: &mut Answer) {
        let slot = &self.slots[at];
        match slot.state {
            State::Established => {
                self.dues.remove(&slot.producer);
                self.ids.remove(slot.id as u8, at as u8, |other| self.slots[other as usize].id as u8);
            }
            State::Opening | State::Closing => self.waiting.retain(|(_, slot)| *slot as usize != at),
            _ => {}
        }
        if state != slot.state {
            answer.notices.push(Notice::Slot(at as u32, state as u8));
        }
        let slot = &mut self.slots[at];
        slot.state = state;
        slot.until = until;
        self.next_time = self.next_time.min(self.time_of(&self.slots[at]));
    }

    #[inline(never)]
    pub fn start(&mut self, at: usize, answer: &mut Answer) {
        answer.begin();
        match self.slots.get_mut(at) {
            Some(slot) if !slot.is_desired && slot.state == State::Idle => {
                slot.is_desired = true;
                self.try_open(at, answer);
                self.next_time = self.next_time.min(self.time_of(&self.slots[at]));
            }
            _ => answer.is_done = false,
        }
    }

    #[inline(never)]
    pub fn stop(&mut self, at: usize, answer: &mut Answer) {
        answer.begin();
        let Some(slot) = self.slots.get_mut(at) else {
            answer.is_done = false;
            return;
        };
        if slot.state == State::Closing || slot.state == State::Idle && !slot.is_desired {
            answer.is_done = false;
            return;
        }
        slot.is_desired = false;
        let (state, target) = (slot.state, slot.target);
        match self.session(target) {
            Some(session) if state == State::Established => self.close(at, session, answer),
            _ => self.enter(at, State::Idle, 0, answer),
        }
    }

    /// The number of a request that waits for its reply.
    fn await_reply(&mut self, at: usize) -> u64 {
        self.next_request += 1;
        self.waiting.push((self.next_request - 1, at as u8));
        self.next_request - 1
    }

    fn close(&mut self, at: usize, session: u32, answer: &mut Answer) {
        self.enter(at, State::Closing, self.clock + self.open_timeout, answer);
        let request = self.await_reply(at);
        let slot = &self.slots[at];
        let bytes = answer.frame(&slot.close_frame);
        frames::address(bytes, session, request);
        bytes[48..50].copy_from_slice(&slot.serial.to_le_bytes());
    }

    /// Opens a slot that is desired, if its time has come and there is a session (rule 16.4).
    fn try_open(&mut self, at: usize, answer: &mut Answer) {
        let slot = &self.slots[at];
        if !slot.is_desired || slot.retry_at > self.clock || !matches!(slot.state, State::Idle | State::TimedOut) {
            return;
        }
        let Some(session) = self.session(slot.target) else {
            return;
        };
        let (serial, id) = (self.next_serial, u32::from(self.incarnation) << 24 | self.next_id);
        self.next_id += 1;
        self.next_serial = serial.checked_add(1).unwrap_or(1);
        self.enter(at, State::Opening, self.clock + self.open_timeout, answer);
        let request = self.await_reply(at);
        let slot = &mut self.slots[at];
        (slot.serial, slot.id) = (serial, id);
        let bytes = answer.frame(&slot.open_frame);
        frames::address(bytes, session, request);
        bytes[52..56].copy_from_slice(&id.to_le_bytes());
        bytes[56..58].copy_from_slice(&serial.to_le_bytes());
    }

    // STREAMS

    #[inline(never)]
    pub fn stream_opened(&mut self, number: u16, target: u32, answer: &mut Answer) {
        answer.begin();
        if self.streams.iter().any(|it| it.number == number || it.target == target) || self.streams.len() == 16 {
            answer.is_done = false;
            return;
        }
        self.streams.push(Stream { number, target, session: None });
        let bytes = answer.frame(&[0; 28]);
        (bytes[0], bytes[2], bytes[24]) = (0x65, 4, 1);
    }

    #[inline(never)]
    pub fn frame(&mut self, number: u16, bytes: &[u8], answer: &mut Answer) {
        answer.begin();
        let stream = self.streams.iter_mut().find(|it| it.number == number);
        let is_whole = bytes.len() >= 24 && u16_at(bytes, 2) as usize == bytes.len() - 24;
        let Some(stream) = stream.filter(|_| is_whole) else {
            answer.is_done = false;
            return;
        };
        let context = u32_at(bytes, 12) as u64 | (u32_at(bytes, 16) as u64) << 32;
        if stream.session.is_some() {
            if let Ok(index) = self.waiting.binary_search_by_key(&context, |it| it.0) {
                let (at, target) = (self.waiting[index].1 as usize, stream.target);
                if self.slots[at].target == target {
                    self.answered(at, bytes, answer);
                }
            }
        } else if context == 0 && u16_at(bytes, 0) == 0x65 && u32_at(bytes, 8) == 0 && bytes.len() == 28 {
            stream.session = Some(u32_at(bytes, 4));
            let target = stream.target;
            for at in (0..self.slots.len()).filter(|at| self.slots[*at].target == target).collect::<Vec<_>>() {
                self.try_open(at, answer);
                self.next_time = self.next_time.min(self.time_of(&self.slots[at]));
            }
        }
    }

    /// A reply for a slot that waits for it (rules 18.4 to 18.12).
    fn answered(&mut self, at: usize, bytes: &[u8], answer: &mut Answer) {
        if self.slots[at].state == State::Closing {
            return self.enter(at, State::Idle, 0, answer);
        }
        let slot = &self.slots[at];
        let fits = |it: &Opened| it.serial == slot.serial && it.t_o_id == slot.id && !self.has_id(slot.target, slot.id);
        let Some(opened) = frames::opened(bytes, self.vendor, self.serial).filter(fits) else {
            answer.notices.push(Notice::Refused(at as u32));
            self.slots[at].retry_at = self.clock + self.retry;
            return self.enter(at, State::Idle, 0, answer);
        };
        self.establish(at, &opened, answer);
    }

    /// Whether an established slot of this target has this id.
    fn has_id(&self, target: u32, id: u32) -> bool {
        let is_its = |at: u8| self.slots[at as usize].id == id && self.slots[at as usize].target == target;
        self.ids.find(id as u8, is_its).is_some()
    }

    fn establish(&mut self, at: usize, opened: &Opened, answer: &mut Answer) {
        let slot = &mut self.slots[at];
        slot.watchdog = (4u64 << slot.multiplier) * opened.t_o_api as u64;
        slot.last = None;
        slot.is_fresh = true;
        slot.producer = Producer::new(at as u32, opened.o_t_id, slot.output.len(), self.clock, opened.o_t_api);
        slot.image.fill(0);
        let until = self.clock + slot.watchdog.max(10_000);
        self.ids.put(slot.id as u8, at as u8);
        self.enter(at, State::Established, until, answer);
        self.dues.put(Due { at: self.clock, number: at as u32, place: at as u8 });
    }
}
