//! An adapter: datagrams, time and writes. Connections and lines have places; a set of places is the bits of a number. Ids
//! and triads are found by open addressing. Due times are in order.

use crate::answer::{Answer, Delivery, Notice, Triad};
use crate::datagrams::{is_newer, places, read_datagram, u32_at, Due, Dues, Index, Producer, MOST, NONE};

#[derive(Clone, Copy, Default, PartialEq)]
pub enum Kind {
    Owner,
    #[default]
    InputOnly,
    ListenOnly,
}

#[derive(Clone, Copy, Default)]
pub struct Connection {
    pub triad: Triad,
    pub peer: u32,
    pub id: u32,
    pub kind: Kind,
    /// An owner's output.
    pub output: u8,
    pub input: u8,
    pub is_multicast: bool,
    pub line: u8,
    pub size: u16,
    pub last: Option<(u32, u16)>,
    pub watchdog: u64,
    pub deadline: u64,
}

/// A producer with its input, its trigger and its consumers.
#[derive(Default)]
pub struct Line {
    pub producer: Producer,
    pub input: u8,
    pub on_change: bool,
    pub inhibit: u8,
    /// When its inhibit time ends.
    pub free_at: u64,
    /// The places of its connections.
    pub connections: u64,
    pub address: u32,
    pub node: u32,
    /// The consumers but the first one.
    pub others: Vec<u32>,
}

impl Line {
    #[inline(always)]
    fn send(&mut self, clock: u64, data: &[u8], are_new: bool, answer: &mut Answer) {
        let front = self.producer.next(are_new);
        answer.datagram(self.address, self.node, &self.others, front, data);
        self.free_at = clock + self.inhibit as u64;
        if self.on_change {
            self.producer.due = clock + self.producer.api as u64;
        } else {
            self.producer.pace(clock);
        }
    }

    pub fn add_consumer(&mut self, peer: u32) {
        if peer != self.node && !self.others.contains(&peer) {
            self.others.push(peer);
        }
    }
}

/// What an output does when its owner is idle or lost.
#[derive(Clone, Copy)]
pub enum Action {
    Hold,
    Zero,
}

pub struct Output {
    pub instance: u32,
    pub value: Vec<u8>,
    pub idle: Action,
    pub fault: Action,
    /// The place of its owner.
    pub owner: u8,
}

/// An input with its value and sets of places: its lines, its listeners and what supports them.
pub struct Input {
    pub instance: u32,
    pub value: Vec<u8>,
    pub lines: u64,
    pub listeners: u64,
    pub supporters: u64,
    /// Its multicast line.
    pub shared: u8,
    /// Its lines that produce at changes of state, by number.
    pub on_change: Vec<u8>,
}

impl Output {
    pub fn new(instance: u32, len: usize, idle: Action, fault: Action) -> Output {
        Output { instance, value: vec![0; len], idle, fault, owner: NONE }
    }

    fn take_action(&mut self, action: Action) {
        if let Action::Zero = action {
            self.value.fill(0);
        }
    }
}

impl Input {
    pub fn new(instance: u32, len: usize) -> Input {
        let value = vec![0; len];
        Input { instance, value, lines: 0, listeners: 0, supporters: 0, shared: NONE, on_change: Vec::new() }
    }
}

pub struct Profile {
    pub incarnation: u8,
    pub node: u32,
    pub mask: u32,
    /// Vendor, device type, product, major, minor.
    pub identity: [u16; 5],
    pub config: Option<u32>,
    pub input_only: u32,
    pub listen_only: u32,
}

pub struct Adapter {
    pub profile: Profile,
    pub outputs: Vec<Output>,
    pub inputs: Vec<Input>,
    pub config: Vec<u8>,
    pub connections: [Connection; MOST],
    /// Sets of places of connections: of all, and of those that did not time out.
    pub used: u64,
    pub established: u64,
    /// Established connections by their ids, and all by their triads.
    pub ids: Index,
    pub triads: Index,
    pub lines: [Line; MOST],
    pub producing: u64,
    /// The lines that have new data.
    fresh: u64,
    dues: Dues,
    pub clock: u64,
    pub next_id: u32,
    /// No watchdog runs out before this.
    pub next_watchdog: u64,
}

impl Adapter {
    pub fn new(profile: Profile, outputs: Vec<Output>, inputs: Vec<Input>, config: Vec<u8>) -> Box<Adapter> {
        Box::new(Adapter {
            profile,
            outputs,
            inputs,
            config,
            connections: [Connection::default(); MOST],
            used: 0,
            established: 0,
            ids: Index::new(),
            triads: Index::new(),
            lines: std::array::from_fn(|_| Line::default()),
            producing: 0,
            fresh: 0,
            dues: Dues::new(),
            clock: 0,
            next_id: 1,
            next_watchdog: u64::MAX,
        })
    }

    // DATAGRAMS

    #[inline(never)]
    pub fn deliver(&mut self, peer: u32, bytes: &[u8]) -> Delivery {
        let Some(datagram) = read_datagram(bytes) else {
            return Delivery::Malformed;
        };
        let connections = &mut self.connections;
        let is_its = |place: u8| {
            let connection = &connections[place as usize % MOST];
            connection.id == datagram.id && connection.peer == peer
        };
        let Some(place) = self.ids.find(datagram.id as u8, is_its) else {
            return Delivery::UnknownId;
        };
        let connection = &mut connections[place as usize % MOST];
        if datagram.data.len() + 2 != connection.size as usize {
            return Delivery::WrongSize;
        }
        let last = connection.last;
        if last.is_some_and(|(number, _)| !is_newer(datagram.sequence, number)) {
            return Delivery::Old;
        }
        connection.last = Some((datagram.sequence, datagram.count));
        connection.deadline = self.clock + connection.watchdog;
        self.next_watchdog = self.next_watchdog.min(connection.deadline);
        if connection.kind != Kind::Owner {
            return Delivery::Heartbeat;
        }
        if last.is_some_and(|(_, count)| count == datagram.count) {
            return Delivery::Duplicate;
        }
        let output = &mut self.outputs[connection.output as usize];
        if u32_at(datagram.data, 0) & 1 == 0 {
            output.take_action(output.idle);
            return Delivery::Idle;
        }
        output.value.copy_from_slice(&datagram.data[4..]);
        Delivery::Applied
    }

    // TIME

    #[inline(never)]
    pub fn tick(&mut self, ms: u32, answer: &mut Answer) {
        answer.begin();
        let clock = self.clock + ms as u64;
        if ms > 60_000 || clock > 1 << 48 {
            answer.is_done = false;
            return;
        }
        self.clock = clock;
        if clock >= self.next_watchdog {
            self.expire(answer);
        }
        if self.dues.is_due(clock) {
            self.produce(answer);
        }
    }

    #[inline(never)]
    fn produce(&mut self, answer: &mut Answer) {
        let clock = self.clock;
        while let Some(due) = self.dues.first(clock) {
            let line = &mut self.lines[due.place as usize % MOST];
            if line.producer.due <= clock {
                let are_new = self.fresh >> due.place & 1 == 1;
                self.fresh &= !(1 << due.place);
                line.send(clock, &self.inputs[line.input as usize].value, are_new, answer);
            }
            line.producer.listed = line.producer.due;
            self.dues.again(Due { at: line.producer.due, ..due });
        }
    }

    #[inline(never)]
    fn expire(&mut self, answer: &mut Answer) {
        let mut over = Vec::new();
        self.next_watchdog = u64::MAX;
        for place in places(self.established) {
            let connection = &self.connections[place as usize];
            if connection.deadline <= self.clock {
                over.push((connection.deadline, connection.id, place));
            } else {
                self.next_watchdog = self.next_watchdog.min(connection.deadline);
            }
        }
        over.sort_unstable();
        let mut lost = 0;
        for (_, _, place) in over {
            let connection = self.connections[place as usize];
            answer.notices.push(Notice::Expired(connection.triad));
            self.end(place);
            lost |= 1 << connection.input;
        }
        self.drop_listeners(lost, answer);
    }

    /// A connection is established no more. Its output takes its fault action.
    pub fn end(&mut self, place: u8) {
        let (bit, connection) = (1 << place, &self.connections[place as usize]);
        let connections = &self.connections;
        self.established &= !bit;
        self.ids.remove(connection.id as u8, place, |other| connections[other as usize].id as u8);
        if connection.kind == Kind::Owner {
            let output = &mut self.outputs[connection.output as usize];
            output.owner = NONE;
            output.take_action(output.fault);
        }
        let input = &mut self.inputs[connection.input as usize];
        input.listeners &= !bit;
        input.supporters &= !bit;
        self.leave(connection.line, bit, connection.peer);
    }

    // WRITES

    #[inline(never)]
    pub fn write(&mut self, point: u32, bytes: &[u8], answer: &mut Answer) {
        answer.begin();
        let is_its = |it: &&mut Input| it.instance == point && it.value.len() == bytes.len();
        let Some(input) = self.inputs.iter_mut().find(is_its) else {
            answer.is_done = false;
            return;
        };
        input.value.copy_from_slice(bytes);
        self.fresh |= input.lines;
        for place in &input.on_change {
            let line = &mut self.lines[*place as usize % MOST];
            if line.free_at <= self.clock {
                self.fresh &= !(1 << *place);
                line.send(self.clock, bytes, true, answer);
            } else {
                line.producer.due = line.producer.due.min(line.free_at);
            }
            if line.producer.due < line.producer.listed {
                self.dues.remove(&line.producer);
                line.producer.listed = line.producer.due;
                self.dues.put(Due { at: line.producer.due, number: line.producer.number, place: *place });
            }
        }
    }

    // LINES

    /// Puts a line of a connection into a free place. It has new data, and is due.
    pub fn begin(&mut self, line: Line) -> u8 {
        let place = (!self.producing).trailing_zeros() as u8;
        let bit = 1 << place;
        let input = &mut self.inputs[line.input as usize];
        input.lines |= bit;
        if line.on_change {
            input.on_change.push(place);
        }
        self.producing |= bit;
        self.fresh |= bit;
        self.dues.put(Due { at: line.producer.due, number: line.producer.number, place });
        let mut others = std::mem::take(&mut self.lines[place as usize].others);
        others.clear();
        self.lines[place as usize] = Line { others, ..line };
        place
    }

    /// A connection leaves its line, which ends with its last one.
    fn leave(&mut self, place: u8, connection: u64, peer: u32) {
        let line = &mut self.lines[place as usize];
        line.connections &= !connection;
        if line.connections != 0 {
            return self.lose_consumer(place, peer);
        }
        let (bit, input) = (1 << place, &mut self.inputs[line.input as usize]);
        input.lines &= !bit;
        if line.on_change {
            input.on_change.retain(|it| *it != place);
        }
        if input.shared == place {
            input.shared = NONE;
        }
        self.producing &= !bit;
        self.fresh &= !bit;
        self.dues.remove(&line.producer);
    }

    /// A peer's connection left a line.
    fn lose_consumer(&mut self, place: u8, peer: u32) {
        let line = &mut self.lines[place as usize];
        if places(line.connections).any(|it| self.connections[it as usize].peer == peer) {
            self.list_consumers(place);
        } else if line.node == peer {
            line.node = line.others.remove(0);
        } else {
            line.others.retain(|it| *it != peer);
        }
    }

    /// The peers of a line's connections, in the order of their opening, each once.
    fn list_consumers(&mut self, place: u8) {
        let line = &mut self.lines[place as usize];
        let mut members: Vec<u8> = places(line.connections).collect();
        members.sort_unstable_by_key(|it| self.connections[*it as usize].id);
        line.node = self.connections[members[0] as usize].peer;
        line.others.clear();
        members.iter().for_each(|it| line.add_consumer(self.connections[*it as usize].peer));
    }
}
