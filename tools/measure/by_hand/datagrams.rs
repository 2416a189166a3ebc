//! Datagrams that come and go, when producers are due, and an index of places.

use std::array::from_fn;

pub const MOST: usize = 64;
pub const NONE: u8 = u8::MAX;

#[inline(always)]
pub fn u16_at(bytes: &[u8], at: usize) -> u16 {
    u16::from_le_bytes(bytes[at..at + 2].try_into().unwrap())
}

#[inline(always)]
pub fn u32_at(bytes: &[u8], at: usize) -> u32 {
    u32::from_le_bytes(bytes[at..at + 4].try_into().unwrap())
}

/// A received datagram.
pub struct Datagram<'a> {
    pub id: u32,
    pub sequence: u32,
    pub count: u16,
    pub data: &'a [u8],
}

/// Reads a datagram (rule 10.11).
#[inline(always)]
pub fn read_datagram(bytes: &[u8]) -> Option<Datagram<'_>> {
    let (front, data) = bytes.split_first_chunk::<20>()?;
    let is_right = u32_at(front, 0) == 0x8002_0002 && u16_at(front, 4) == 8 && u16_at(front, 14) == 0xB1;
    if !is_right || data.len() + 2 != u16_at(front, 16) as usize {
        return None;
    }
    Some(Datagram { id: u32_at(front, 6), sequence: u32_at(front, 10), count: u16_at(front, 18), data })
}

pub fn is_newer(number: u32, than: u32) -> bool {
    number.wrapping_sub(than) as i32 > 0
}

/// A producer: the fixed bytes of its datagrams, in which the sequence number and the count are put at each one.
#[derive(Clone, Copy, Default)]
pub struct Producer {
    front: [u8; 20],
    sequence: u32,
    count: u16,
    pub number: u32,
    pub api: u32,
    pub due: u64,
    /// Its time in the list of due times, which is not after `due`.
    pub listed: u64,
}

impl Producer {
    /// A producer of data of this length, that is due now (rule 7.9).
    pub fn new(number: u32, id: u32, length: usize, due: u64, api: u32) -> Producer {
        let mut front = [0; 20];
        front[..6].copy_from_slice(&[2, 0, 2, 0x80, 8, 0]);
        front[6..10].copy_from_slice(&id.to_le_bytes());
        front[14..16].copy_from_slice(&[0xB1, 0]);
        front[16..18].copy_from_slice(&(length as u16 + 2).to_le_bytes());
        Producer { front, sequence: 1, count: 0, number, api, due, listed: due }
    }

    pub fn id(&self) -> u32 {
        u32_at(&self.front, 6)
    }

    /// The front of the next datagram, whose data may be new (rules 11.5 and 11.6).
    #[inline(always)]
    pub fn next(&mut self, are_new: bool) -> &[u8; 20] {
        if are_new {
            self.count = self.count.wrapping_add(1);
            self.front[18..].copy_from_slice(&self.count.to_le_bytes());
        }
        self.front[10..14].copy_from_slice(&self.sequence.to_le_bytes());
        self.sequence = self.sequence.wrapping_add(1);
        &self.front
    }

    /// A cyclic producer is due again (rule 11.7).
    #[inline(always)]
    pub fn pace(&mut self, clock: u64) {
        let next = self.due + self.api as u64;
        self.due = if next > clock { next } else { clock + self.api as u64 };
    }
}

/// When a producer is due, its number and its place.
#[derive(Clone, Copy, Default)]
pub struct Due {
    pub at: u64,
    pub number: u32,
    pub place: u8,
}

/// The times at which producers are due, in order, by number where they are the same: a ring.
pub struct Dues {
    ring: [Due; MOST],
    first: usize,
    len: usize,
}

impl Dues {
    pub fn new() -> Dues {
        Dues { ring: [Due::default(); MOST], first: 0, len: 0 }
    }

    fn index(&self, position: usize) -> usize {
        (self.first + position) % MOST
    }

    fn is_before(&self, position: usize, at: u64, number: u32) -> bool {
        let due = &self.ring[self.index(position)];
        due.at < at || due.at == at && due.number < number
    }

    #[inline(always)]
    pub fn is_due(&self, clock: u64) -> bool {
        self.len > 0 && self.ring[self.first % MOST].at <= clock
    }

    /// The first, if its time is reached.
    #[inline(always)]
    pub fn first(&self, clock: u64) -> Option<Due> {
        self.is_due(clock).then(|| self.ring[self.first % MOST])
    }

    /// The first one is due again at this time.
    #[inline(always)]
    pub fn again(&mut self, due: Due) {
        self.first = (self.first + 1) % MOST;
        self.len -= 1;
        self.put(due);
    }

    /// Puts a time behind the earlier ones, which is nearly always at the end.
    #[inline(always)]
    pub fn put(&mut self, due: Due) {
        if self.len == 0 || self.is_before(self.len - 1, due.at, due.number) {
            let end = self.index(self.len);
            self.ring[end] = due;
            self.len += 1;
        } else {
            self.insert(due);
        }
    }

    /// How many are before a time and a number.
    fn position(&self, at: u64, number: u32) -> usize {
        let (mut low, mut high) = (0, self.len);
        while low < high {
            let middle = (low + high) / 2;
            if self.is_before(middle, at, number) {
                low = middle + 1;
            } else {
                high = middle;
            }
        }
        low
    }

    /// Moves the one at a position to another position.
    fn shift(&mut self, from: usize, to: usize) {
        let (from, to) = (self.index(from), self.index(to));
        self.ring[to] = self.ring[from];
    }

    #[inline(never)]
    fn insert(&mut self, due: Due) {
        let position = self.position(due.at, due.number);
        if 2 * position < self.len {
            self.first = (self.first + MOST - 1) % MOST;
            (0..position).for_each(|it| self.shift(it + 1, it));
        } else {
            (position..self.len).rev().for_each(|it| self.shift(it, it + 1));
        }
        self.len += 1;
        let index = self.index(position);
        self.ring[index] = due;
    }

    /// Removes what a producer is listed as.
    pub fn remove(&mut self, producer: &Producer) {
        let position = self.position(producer.listed, producer.number);
        if 2 * position < self.len {
            (0..position).rev().for_each(|it| self.shift(it, it + 1));
            self.first = (self.first + 1) % MOST;
        } else {
            (position + 1..self.len).for_each(|it| self.shift(it, it - 1));
        }
        self.len -= 1;
    }
}

/// Places by open addressing. Each is put at its home, or at the first free entry behind.
pub struct Index([u8; 256]);

impl Index {
    pub fn new() -> Index {
        Index(from_fn(|_| NONE))
    }

    pub fn put(&mut self, home: u8, place: u8) {
        let mut at = home;
        while self.0[at as usize] != NONE {
            at = at.wrapping_add(1);
        }
        self.0[at as usize] = place;
    }

    /// The place of a home that passes a test.
    #[inline(always)]
    pub fn find(&self, home: u8, mut test: impl FnMut(u8) -> bool) -> Option<u8> {
        let mut at = home;
        loop {
            let place = self.0[at as usize];
            if place == NONE {
                return None;
            }
            if test(place) {
                return Some(place);
            }
            at = at.wrapping_add(1);
        }
    }

    /// Removes a place. Those behind it move up, unless they would be before their homes.
    pub fn remove(&mut self, home: u8, place: u8, home_of: impl Fn(u8) -> u8) {
        let mut at = home;
        while self.0[at as usize] != place {
            at = at.wrapping_add(1);
        }
        let mut behind = at.wrapping_add(1);
        while self.0[behind as usize] != NONE {
            let other = self.0[behind as usize];
            if behind.wrapping_sub(home_of(other)) >= behind.wrapping_sub(at) {
                self.0[at as usize] = other;
                at = behind;
            }
            behind = behind.wrapping_add(1);
        }
        self.0[at as usize] = NONE;
    }
}

/// The places of a set of bits, the lowest first.
pub fn places(mut bits: u64) -> impl Iterator<Item = u8> {
    std::iter::from_fn(move || {
        let place = bits.trailing_zeros() as u8;
        bits &= bits.wrapping_sub(1);
        (place < 64).then_some(place)
    })
}
