//! What a device answers. It writes into an answer of its caller, which keeps its memory from event to event.

#[derive(Clone, Copy, Default, PartialEq)]
pub struct Triad {
    pub serial: u16,
    pub vendor: u16,
    pub originator: u32,
}

impl Triad {
    pub fn bytes(self) -> [u8; 8] {
        let [a, b] = self.serial.to_le_bytes();
        let [c, d] = self.vendor.to_le_bytes();
        let [e, f, g, h] = self.originator.to_le_bytes();
        [a, b, c, d, e, f, g, h]
    }
}

pub enum Notice {
    Opened(Triad, u32),
    Closed(Triad),
    Expired(Triad),
    Dropped(Triad),
    Replaced(Triad),
    Slot(u32, u8),
    Refused(u32),
}

#[derive(PartialEq)]
pub enum Delivery {
    Applied,
    Idle,
    Heartbeat,
    Duplicate,
    Old,
    UnknownId,
    WrongSize,
    Malformed,
}

/// A datagram to an address, and its first consumer. Its bytes and its other consumers are behind those of the one before.
struct Sent {
    address: u32,
    node: u32,
    nodes_end: u32,
    end: u32,
}

/// Whether an event was processed. Frames, datagrams and notices, each in order; frames come before datagrams.
#[derive(Default)]
pub struct Answer {
    pub is_done: bool,
    pub notices: Vec<Notice>,
    bytes: Vec<u8>,
    frame_ends: Vec<u32>,
    sent: Vec<Sent>,
    nodes: Vec<u32>,
}

impl Answer {
    /// The answer to a new event, which is processed unless the device says otherwise.
    pub fn begin(&mut self) {
        self.is_done = true;
        self.notices.clear();
        self.bytes.clear();
        self.frame_ends.clear();
        self.sent.clear();
        self.nodes.clear();
    }

    /// Adds a frame, whose bytes may be changed yet.
    pub fn frame(&mut self, bytes: &[u8]) -> &mut [u8] {
        let at = self.bytes.len();
        self.bytes.extend_from_slice(bytes);
        self.frame_ends.push(self.bytes.len() as u32);
        &mut self.bytes[at..]
    }

    #[inline(always)]
    pub fn datagram(&mut self, address: u32, node: u32, others: &[u32], front: &[u8; 20], data: &[u8]) {
        self.bytes.reserve(20 + data.len());
        self.bytes.extend_from_slice(front);
        self.bytes.extend_from_slice(data);
        if !others.is_empty() {
            self.nodes.extend_from_slice(others);
        }
        self.sent.push(Sent { address, node, nodes_end: self.nodes.len() as u32, end: self.bytes.len() as u32 });
    }

    pub fn frames(&self) -> impl Iterator<Item = &[u8]> {
        let mut at = 0;
        self.frame_ends.iter().map(move |end| &self.bytes[std::mem::replace(&mut at, *end as usize)..*end as usize])
    }

    /// The datagrams: the address, the first consumer, the others, and the bytes.
    pub fn datagrams(&self) -> impl Iterator<Item = (u32, u32, &[u32], &[u8])> {
        let (mut at, mut node_at) = (self.frame_ends.last().map_or(0, |end| *end as usize), 0);
        self.sent.iter().map(move |it| {
            let bytes = &self.bytes[std::mem::replace(&mut at, it.end as usize)..it.end as usize];
            let others = &self.nodes[std::mem::replace(&mut node_at, it.nodes_end as usize)..it.nodes_end as usize];
            (it.address, it.node, others, bytes)
        })
    }
}
