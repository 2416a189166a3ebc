//! Requests to an adapter: paths, Forward_Open and Forward_Close.

use crate::answer::Triad;
use crate::datagrams::{u16_at, u32_at};

/// A connection path (rule 4.6).
#[derive(Default)]
pub struct Path<'a> {
    pub key: Option<&'a [u8; 8]>,
    pub inhibit: Option<u8>,
    pub class: u32,
    pub data: Option<&'a [u8]>,
    points: [u32; 3],
    count: usize,
}

/// Why a path does not read.
pub enum PathFault {
    Segment,
    Shape,
}

/// Reads a connection path; a misarranged one is only known once all segments are read.
pub fn read_path(mut bytes: &[u8]) -> Result<Path<'_>, PathFault> {
    let mut path = Path::default();
    let (mut step, mut is_shaped) = (0, true);
    while let Some(first) = bytes.first() {
        let length = match *first {
            kind if kind & 0xE0 == 0x20 && kind & 3 < 3 && kind >> 2 & 7 < 5 => 2 + 2 * (kind & 3) as usize,
            0x34 if bytes.get(1) == Some(&4) => 10,
            0x43 => 2,
            0x80 => 2 + 2 * *bytes.get(1).ok_or(PathFault::Segment)? as usize,
            _ => return Err(PathFault::Segment),
        };
        let (segment, rest) = bytes.split_at_checked(length).ok_or(PathFault::Segment)?;
        is_shaped &= path.add(segment, &mut step);
        bytes = rest;
    }
    if is_shaped && path.count >= 2 {
        Ok(path)
    } else {
        Err(PathFault::Shape)
    }
}

impl<'a> Path<'a> {
    /// The configuration, and the consumed and the produced point.
    pub fn points(&self) -> (Option<u32>, [u32; 2]) {
        match self.points {
            [config, consumed, produced] if self.count == 3 => (Some(config), [consumed, produced]),
            [consumed, produced, _] => (None, [consumed, produced]),
        }
    }

    /// Adds a segment: false where it may not be behind the ones before.
    #[inline(always)]
    fn add(&mut self, segment: &'a [u8], step: &mut u8) -> bool {
        match segment[0] {
            0x34 => {
                self.key = segment[2..].try_into().ok();
                std::mem::replace(step, 1) == 0
            }
            0x43 => self.inhibit.replace(segment[1]).is_none(),
            0x80 => {
                self.data = Some(&segment[2..]);
                std::mem::replace(step, 3) == 2 && self.count >= 2
            }
            kind => {
                let value = match segment.len() {
                    2 => segment[1] as u32,
                    4 => u16_at(segment, 2) as u32,
                    _ => u32_at(segment, 2),
                };
                self.add_logical(kind >> 2 & 7, value, step)
            }
        }
    }

    #[inline(always)]
    fn add_logical(&mut self, kind: u8, value: u32, step: &mut u8) -> bool {
        match (kind, *step) {
            (0, 0 | 1) => {
                self.class = value;
                *step = 2;
                true
            }
            (1 | 3, 2) if self.count < 3 => {
                self.points[self.count] = value;
                self.count += 1;
                true
            }
            _ => false,
        }
    }
}

/// One direction of a connection: its interval in microseconds, its size and its type (0 null, 1 multicast, 2 point to
/// point).
#[derive(Clone, Copy)]
pub struct Direction {
    pub rpi: u32,
    pub size: u32,
    pub kind: u32,
    pub is_redundant: bool,
}

impl Direction {
    fn read(bytes: &[u8], is_large: bool) -> Direction {
        let word = if is_large { u32_at(bytes, 4) } else { u16_at(bytes, 4) as u32 };
        let (size, high) = if is_large { (word & 0xFFFF, word >> 16) } else { (word & 0x1FF, word) };
        Direction { rpi: u32_at(bytes, 0), size, kind: high >> 13 & 3, is_redundant: high >> 15 & 1 == 1 }
    }

    pub fn api(self) -> u32 {
        self.rpi.div_ceil(1_000)
    }
}

/// A Forward_Open.
pub struct Opening<'a> {
    pub t_o_id: u32,
    pub triad: Triad,
    pub multiplier: u8,
    pub o_t: Direction,
    pub t_o: Direction,
    pub transport: u8,
    pub path: &'a [u8],
}

impl Opening<'_> {
    pub fn is_multicast(&self) -> bool {
        self.t_o.kind == 1
    }

    pub fn trigger(&self) -> u8 {
        self.transport >> 4 & 7
    }
}

pub enum Request<'a> {
    Open(u8, Opening<'a>),
    Close(Triad),
    Refused(u8, u8),
    Nothing,
}

/// Where the search for a triad begins: at its serial number, moved on by its originator.
pub fn home_of(triad: Triad) -> u8 {
    let mixed = triad.originator.wrapping_add(triad.vendor as u32).wrapping_mul(0x9E37_79B1);
    triad.serial.wrapping_add((mixed >> 24) as u16) as u8
}

#[inline(always)]
fn triad_at(bytes: &[u8], at: usize) -> Triad {
    let bytes = &bytes[at..at + 8];
    Triad { serial: u16_at(bytes, 0), vendor: u16_at(bytes, 2), originator: u32_at(bytes, 4) }
}

/// The path behind data of fixed length, of which one byte states how many words the path has.
fn with_path(body: &[u8], fixed: usize, words_at: usize) -> Result<&[u8], u8> {
    if body.len() < fixed {
        return Err(0x13);
    }
    let length = 2 * body[words_at] as usize;
    match body.len() - fixed {
        rest if rest < length => Err(0x13),
        rest if rest > length => Err(0x15),
        _ => Ok(&body[fixed..]),
    }
}

/// Reads a request to the message router: the Connection Manager's services.
pub fn read_request(bytes: &[u8]) -> Request<'_> {
    let [service, words, rest @ ..] = bytes else {
        return if bytes.is_empty() { Request::Nothing } else { Request::Refused(bytes[0], 0x13) };
    };
    let Some((path, body)) = rest.split_at_checked(2 * *words as usize) else {
        return Request::Refused(*service, 0x13);
    };
    if path != [0x20, 6, 0x24, 1] {
        return Request::Refused(*service, 5);
    }
    match service {
        0x54 | 0x5B => open(*service, body),
        0x4E => match with_path(body, 12, 10) {
            Ok(_) => Request::Close(triad_at(body, 2)),
            Err(status) => Request::Refused(*service, status),
        },
        _ => Request::Refused(*service, 8),
    }
}

fn open(service: u8, body: &[u8]) -> Request<'_> {
    let wide = if service == 0x5B { 2 } else { 0 };
    let fixed = 36 + 2 * wide;
    match with_path(body, fixed, fixed - 1) {
        Err(status) => Request::Refused(service, status),
        Ok(path) => Request::Open(
            service,
            Opening {
                t_o_id: u32_at(body, 6),
                triad: triad_at(body, 10),
                multiplier: body[18],
                o_t: Direction::read(&body[22..], wide > 0),
                t_o: Direction::read(&body[28 + wide..], wide > 0),
                transport: body[34 + 2 * wide],
                path,
            },
        ),
    }
}
