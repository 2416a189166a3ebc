//! A reader of the lines of events, written by hand from docs/PROFILE.md: each byte is read once, digits go through a table,
//! and each event is built in its place in the list.

/// An event with what its line says.
pub enum Event {
    Request(u32, Vec<u8>),
    Opened(u16, u32),
    Frame(u16, Vec<u8>),
    Cut(u16),
    Datagram(u32, Vec<u8>),
    Write(u32, Vec<u8>),
    Read(u32),
    Tick(u32),
    Mode(bool),
    Start(u32),
    Stop(u32),
}

const BAD: u8 = u8::MAX;

/// The value of each byte as a hexadecimal digit.
const DIGITS: [u8; 256] = {
    let mut digits = [BAD; 256];
    let mut at = 0;
    while at < 16 {
        digits[b"0123456789abcdef"[at] as usize] = at as u8;
        digits[b"0123456789ABCDEF"[at] as usize] = at as u8;
        at += 1;
    }
    digits
};

/// The part of a text that is not read yet: a word is read up to the space or the line feed behind it, in one pass.
struct Words<'a>(&'a [u8]);

impl<'a> Words<'a> {
    /// The byte in front, which is behind a word.
    fn is_at(&self, byte: u8) -> bool {
        self.0.first() == Some(&byte)
    }

    /// Takes the space behind a word.
    fn space(&mut self) -> Option<()> {
        self.0 = self.0.strip_prefix(b" ")?;
        Some(())
    }

    fn word(&mut self) -> &'a [u8] {
        let end = self.0.iter().position(|byte| *byte == b' ' || *byte == b'\n').unwrap_or(self.0.len());
        let (word, rest) = self.0.split_at(end);
        self.0 = rest;
        word
    }

    /// Decimal digits, the first of them 0 only if it is the only one.
    fn number(&mut self, most: u64) -> Option<u64> {
        let text = self.0;
        let mut number = 0;
        let mut len = 0;
        while let Some(digit) = text.get(len).map(|byte| byte.wrapping_sub(b'0')).filter(|digit| *digit < 10) {
            number = number * 10 + digit as u64;
            len += 1;
            if len > 10 {
                return None;
            }
        }
        if len == 0 || len > 1 && text[0] == b'0' {
            return None;
        }
        self.0 = &text[len..];
        (number <= most).then_some(number)
    }

    /// A number behind a space.
    fn u32(&mut self) -> Option<u32> {
        self.space()?;
        self.number(u32::MAX as u64).map(|number| number as u32)
    }

    fn stream(&mut self) -> Option<u16> {
        self.space()?;
        self.number(u16::MAX as u64).map(|number| number as u16)
    }

    fn node(&mut self) -> Option<u32> {
        self.space()?;
        let mut node = self.number(255)? as u32;
        for _ in 0..3 {
            self.0 = self.0.strip_prefix(b".")?;
            node = node << 8 | self.number(255)? as u32;
        }
        Some(node)
    }

    fn bytes(&mut self) -> Option<Vec<u8>> {
        self.space()?;
        if self.is_at(b'-') {
            self.0 = &self.0[1..];
            return Some(Vec::new());
        }
        let mut bytes = Vec::with_capacity(64);
        let mut rest = self.0;
        while let [high, low, after @ ..] = rest {
            let (high, low) = (DIGITS[*high as usize], DIGITS[*low as usize]);
            if high == BAD {
                break;
            }
            if low == BAD {
                return None;
            }
            bytes.push(high << 4 | low);
            rest = after;
        }
        self.0 = rest;
        (!bytes.is_empty()).then_some(bytes)
    }
}

fn event(words: &mut Words<'_>) -> Option<Event> {
    let event = match words.word() {
        b"datagram" => Event::Datagram(words.node()?, words.bytes()?),
        b"request" => Event::Request(words.node()?, words.bytes()?),
        b"frame" => Event::Frame(words.stream()?, words.bytes()?),
        b"write" => Event::Write(words.u32()?, words.bytes()?),
        b"read" => Event::Read(words.u32()?),
        b"tick" => Event::Tick(words.u32()?),
        b"stream" => Event::Opened(words.stream()?, words.node()?),
        b"cut" => Event::Cut(words.stream()?),
        b"start" => Event::Start(words.u32()?),
        b"stop" => Event::Stop(words.u32()?),
        b"mode" => {
            words.space()?;
            Event::Mode(match words.word() {
                b"run" => true,
                b"idle" => false,
                _ => return None,
            })
        }
        _ => return None,
    };
    words.is_at(b'\n').then_some(event)
}

/// The events of a text behind the lines of its profile, or the number of the first line that is none.
pub fn events(text: &[u8]) -> Result<Vec<Event>, usize> {
    let mut events = Vec::new();
    let mut words = Words(text);
    let mut line = 0;
    while !words.0.is_empty() {
        match event(&mut words) {
            Some(event) => events.push(event),
            None if events.is_empty() => {
                let end = words.0.iter().position(|byte| *byte == b'\n').ok_or(line)?;
                words.0 = &words.0[end..];
            }
            None => return Err(line),
        }
        (line, words.0) = (line + 1, &words.0[1..]);
    }
    Ok(events)
}

/// A sum over what the events say.
pub fn sum(events: &[Event]) -> u64 {
    let mut sum: u64 = 0;
    let mut add = |number: u64| sum = sum.wrapping_mul(31).wrapping_add(number);
    for event in events {
        match event {
            Event::Request(number, bytes) | Event::Datagram(number, bytes) | Event::Write(number, bytes) => {
                add(*number as u64);
                bytes.iter().for_each(|byte| add(*byte as u64));
            }
            Event::Frame(stream, bytes) => {
                add(*stream as u64);
                bytes.iter().for_each(|byte| add(*byte as u64));
            }
            Event::Opened(stream, peer) => add((*stream as u64) << 32 | *peer as u64),
            Event::Cut(stream) => add(*stream as u64),
            Event::Read(number) | Event::Tick(number) | Event::Start(number) | Event::Stop(number) => add(*number as u64),
            Event::Mode(run) => add(*run as u64),
        }
    }
    sum
}
