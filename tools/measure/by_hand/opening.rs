//! Requests at an adapter: openings by the checks of section 7, in their order, and closes.

use crate::adapter::{Adapter, Connection, Kind, Line};
use crate::answer::{Answer, Notice, Triad};
use crate::datagrams::{places, Producer, MOST, NONE};
use crate::requests::{home_of, read_path, read_request, Opening, Path, PathFault, Request};

/// An opening that passed the checks.
struct Admitted<'a> {
    kind: Kind,
    output: u8,
    input: u8,
    on_change: bool,
    inhibit: u8,
    config: Option<&'a [u8]>,
    /// The timed-out connection of its triad, or none.
    same: Option<u8>,
}

/// The points of an opening: its kind, an owner's output, its input, and the new bytes of the configuration.
type Points<'a> = (Kind, u8, u8, Option<&'a [u8]>);

/// An extended status; the general one is 1.
type Refusal = u16;

impl Adapter {
    #[inline(never)]
    pub fn request(&mut self, peer: u32, bytes: &[u8], answer: &mut Answer) {
        answer.begin();
        match read_request(bytes) {
            Request::Nothing => answer.is_done = false,
            Request::Refused(service, status) => {
                answer.frame(&[service | 0x80, 0, status, 0]);
            }
            Request::Close(triad) => self.close(triad, answer),
            Request::Open(service, opening) => match self.admit(&opening) {
                Ok(admitted) => self.open(service, peer, &opening, &admitted, answer),
                Err(status) => refuse(service, status, opening.triad, answer),
            },
        }
    }

    fn find(&self, triad: Triad) -> Option<u8> {
        self.triads.find(home_of(triad), |place| self.connections[place as usize % MOST].triad == triad)
    }

    fn close(&mut self, triad: Triad, answer: &mut Answer) {
        let Some(place) = self.find(triad) else {
            return refuse(0x4E, 0x0107, triad, answer);
        };
        answer.notices.push(Notice::Closed(triad));
        self.remove(place);
        self.drop_listeners(1 << self.connections[place as usize].input, answer);
        let [a, b, c, d, e, f, g, h] = triad.bytes();
        answer.frame(&[0xCE, 0, 0, 0, a, b, c, d, e, f, g, h, 0, 0]);
    }

    fn remove(&mut self, place: u8) {
        if self.established >> place & 1 == 1 {
            self.end(place);
        }
        self.used &= !(1 << place);
        let connections = &self.connections;
        let home = |other: u8| home_of(connections[other as usize].triad);
        self.triads.remove(home(place), place, home);
    }

    /// Listeners of these inputs that lost their last supporter are dropped, in the order of their opening.
    pub fn drop_listeners(&mut self, inputs: u64, answer: &mut Answer) {
        let inputs = places(inputs).map(|at| &self.inputs[at as usize]);
        let alone = inputs.filter(|it| it.supporters == 0).fold(0, |alone, it| alone | it.listeners);
        if alone == 0 {
            return;
        }
        let mut listeners: Vec<u8> = places(alone).collect();
        listeners.sort_unstable_by_key(|place| self.connections[*place as usize].id);
        for place in listeners {
            answer.notices.push(Notice::Dropped(self.connections[place as usize].triad));
            self.remove(place);
        }
    }

    fn admit<'a>(&self, opening: &Opening<'a>) -> Result<Admitted<'a>, Refusal> {
        let path = match read_path(opening.path) {
            Err(PathFault::Segment) => return Err(0x0315),
            Err(PathFault::Shape) => None,
            Ok(path) => Some(path),
        };
        let same = self.find(opening.triad);
        if same.is_some_and(|place| self.established >> place & 1 == 1) {
            return Err(0x0100);
        }
        if let Some(key) = path.as_ref().and_then(|path| path.key) {
            self.check_key(key)?;
        }
        let inhibit = check_parameters(opening, path.as_ref().and_then(|path| path.inhibit))?;
        let Some(path) = path.filter(|path| path.class == 4) else {
            return Err(0x0117);
        };
        let (kind, output, input, config) = self.points(opening, &path)?;
        self.check_sharing(opening, kind, input, inhibit)?;
        let draws = 1 + u32::from(opening.is_multicast() && self.inputs[input as usize].shared == NONE);
        if self.next_id + draws > 1 << 24 || self.established == u64::MAX {
            return Err(0x0113);
        }
        Ok(Admitted { kind, output, input, on_change: opening.trigger() == 1, inhibit, config, same })
    }

    fn check_key(&self, key: &[u8; 8]) -> Result<(), Refusal> {
        let [vendor, device, product, major, minor] = self.profile.identity;
        let word = |at: usize| u16::from_le_bytes([key[at], key[at + 1]]);
        let differs = |asked: u16, own: u16| asked != 0 && asked != own;
        if differs(word(0), vendor) || differs(word(4), product) {
            return Err(0x0114);
        }
        if differs(word(2), device) {
            return Err(0x0115);
        }
        let is_newer = if key[6] & 0x80 != 0 { key[7] as u16 > minor } else { differs(key[7] as u16, minor) };
        if differs(key[6] as u16 & 0x7F, major) || is_newer {
            return Err(0x0116);
        }
        Ok(())
    }

    /// Checks 9 to 12.
    fn points<'a>(&self, opening: &Opening<'a>, path: &Path<'a>) -> Result<Points<'a>, Refusal> {
        let (config, [consumed, produced]) = path.points();
        if config.is_some() && config != self.profile.config {
            return Err(0x0129);
        }
        let output = self.outputs.iter().position(|it| it.instance == consumed);
        let kind = match output {
            Some(_) => Kind::Owner,
            None if consumed == self.profile.input_only => Kind::InputOnly,
            None if consumed == self.profile.listen_only => Kind::ListenOnly,
            None => return Err(0x012A),
        };
        let Some(input) = self.inputs.iter().position(|it| it.instance == produced) else {
            return Err(0x012B);
        };
        let data = self.check_data(config, path.data)?;
        if opening.o_t.size as usize != output.map_or(2, |at| self.outputs[at].value.len() + 6) {
            return Err(0x0127);
        }
        if opening.t_o.size as usize != self.inputs[input].value.len() + 2 {
            return Err(0x0128);
        }
        if output.is_some_and(|at| self.outputs[at].owner != NONE) {
            return Err(0x0106);
        }
        Ok((kind, output.unwrap_or(0) as u8, input as u8, data))
    }

    fn check_data<'a>(&self, config: Option<u32>, data: Option<&'a [u8]>) -> Result<Option<&'a [u8]>, Refusal> {
        let Some(data) = data else {
            return Ok(None);
        };
        let present = config.map_or(&[][..], |_| &self.config);
        if data.len() != present.len() {
            return Err(0x0126);
        }
        if data != present && self.established != 0 {
            return Err(0x0106);
        }
        Ok(config.map(|_| data))
    }

    /// Checks 13 and 14.
    fn check_sharing(&self, opening: &Opening<'_>, kind: Kind, input: u8, inhibit: u8) -> Result<(), Refusal> {
        let input = &self.inputs[input as usize];
        if kind == Kind::ListenOnly {
            if !opening.is_multicast() {
                return Err(0x0124);
            }
            if input.supporters == 0 {
                return Err(0x0119);
            }
        }
        if !opening.is_multicast() || input.shared == NONE {
            return Ok(());
        }
        let line = &self.lines[input.shared as usize];
        if line.producer.api != opening.t_o.api() {
            return Err(0x0111);
        }
        if line.on_change != (opening.trigger() == 1) {
            return Err(0x0103);
        }
        if line.inhibit != inhibit {
            return Err(0x0111);
        }
        Ok(())
    }

    fn open(&mut self, service: u8, peer: u32, opening: &Opening<'_>, admitted: &Admitted<'_>, answer: &mut Answer) {
        if let Some(place) = admitted.same.or_else(|| self.oldest_if_full()) {
            answer.notices.push(Notice::Replaced(self.connections[place as usize].triad));
            self.remove(place);
        }
        if let Some(bytes) = admitted.config {
            self.config.copy_from_slice(bytes);
        }
        let id = self.draw_id();
        let place = (!self.used).trailing_zeros() as u8;
        let line = self.join(place, peer, id, opening, admitted);
        let watchdog = (4u64 << opening.multiplier) * opening.o_t.api() as u64;
        let connection = Connection {
            triad: opening.triad,
            peer,
            id,
            kind: admitted.kind,
            output: admitted.output,
            input: admitted.input,
            is_multicast: opening.is_multicast(),
            line,
            size: opening.o_t.size as u16,
            last: None,
            watchdog,
            deadline: self.clock + watchdog.max(10_000),
        };
        self.establish(place, connection);
        answer.notices.push(Notice::Opened(opening.triad, id));
        self.reply(service, opening, id, line, answer);
    }

    /// The timed-out connection that was opened first, if the table is full (rule 7.6).
    fn oldest_if_full(&self) -> Option<u8> {
        if self.used != u64::MAX {
            return None;
        }
        places(!self.established).min_by_key(|place| self.connections[*place as usize].id)
    }

    fn draw_id(&mut self) -> u32 {
        self.next_id += 1;
        u32::from(self.profile.incarnation) << 24 | (self.next_id - 1)
    }

    /// The line of a connection in this place: that of its input's group, or its own.
    fn join(&mut self, place: u8, peer: u32, id: u32, opening: &Opening<'_>, admitted: &Admitted<'_>) -> u8 {
        let is_multicast = opening.is_multicast();
        let shared = self.inputs[admitted.input as usize].shared;
        if is_multicast && shared != NONE {
            let line = &mut self.lines[shared as usize];
            line.connections |= 1 << place;
            line.add_consumer(peer);
            return shared;
        }
        let (mut t_o_id, mut address) = (opening.t_o_id, peer);
        if is_multicast {
            t_o_id = self.draw_id();
            let host = (self.profile.node & !self.profile.mask) - 1;
            address = 0xEFC0_0100 + 32 * (host % 1_024) + admitted.input as u32;
        }
        let length = self.inputs[admitted.input as usize].value.len();
        let line = self.begin(Line {
            producer: Producer::new(id & 0xFF_FFFF, t_o_id, length, self.clock, opening.t_o.api()),
            input: admitted.input,
            on_change: admitted.on_change,
            inhibit: admitted.inhibit,
            free_at: 0,
            connections: 1 << place,
            address,
            node: peer,
            others: Vec::new(),
        });
        if is_multicast {
            self.inputs[admitted.input as usize].shared = line;
        }
        line
    }

    fn establish(&mut self, place: u8, connection: Connection) {
        let bit = 1 << place;
        self.used |= bit;
        self.established |= bit;
        self.next_watchdog = self.next_watchdog.min(connection.deadline);
        self.ids.put(connection.id as u8, place);
        self.triads.put(home_of(connection.triad), place);
        let input = &mut self.inputs[connection.input as usize];
        match connection.kind {
            Kind::ListenOnly => input.listeners |= bit,
            _ if connection.is_multicast => input.supporters |= bit,
            _ => {}
        }
        if connection.kind == Kind::Owner {
            self.outputs[connection.output as usize].owner = place;
        }
        self.connections[place as usize] = connection;
    }

    fn reply(&self, service: u8, opening: &Opening<'_>, id: u32, line: u8, answer: &mut Answer) {
        let mut bytes = [0; 30];
        bytes[0] = service | 0x80;
        bytes[4..8].copy_from_slice(&id.to_le_bytes());
        bytes[8..12].copy_from_slice(&self.lines[line as usize].producer.id().to_le_bytes());
        bytes[12..20].copy_from_slice(&opening.triad.bytes());
        bytes[20..24].copy_from_slice(&(opening.o_t.api() * 1_000).to_le_bytes());
        bytes[24..28].copy_from_slice(&(opening.t_o.api() * 1_000).to_le_bytes());
        answer.frame(&bytes);
    }
}

/// Checks 5 to 8, and the inhibit time, which counts as 0 of a cyclic request.
fn check_parameters(opening: &Opening<'_>, inhibit: Option<u8>) -> Result<u8, Refusal> {
    if opening.o_t.kind != 2 {
        return Err(0x0123);
    }
    if !matches!(opening.t_o.kind, 1 | 2) {
        return Err(0x0124);
    }
    let trigger = opening.trigger();
    if opening.transport & 0xF != 1 || trigger > 1 {
        return Err(0x0103);
    }
    if opening.multiplier > 7 || opening.o_t.is_redundant || opening.t_o.is_redundant {
        return Err(0x0108);
    }
    let is_interval = |rpi: u32| (1..=10_000_000).contains(&rpi);
    if !is_interval(opening.o_t.rpi) || !is_interval(opening.t_o.rpi) {
        return Err(0x0111);
    }
    let inhibit = inhibit.filter(|_| trigger == 1).unwrap_or(0);
    if inhibit as u32 > opening.t_o.api() {
        return Err(0x011B);
    }
    Ok(inhibit)
}

/// A refusal that names a connection (rule 6.7).
fn refuse(service: u8, status: u16, triad: Triad, answer: &mut Answer) {
    let ([low, high], [a, b, c, d, e, f, g, h]) = (status.to_le_bytes(), triad.bytes());
    answer.frame(&[service | 0x80, 0, 1, 1, low, high, a, b, c, d, e, f, g, h, 0, 0]);
}
