//! A scanner's requests, and the replies that open a connection.

use crate::datagrams::{u16_at, u32_at};
use crate::scanner::SlotProfile;

/// A success of Forward_Open: both ids, the serial number, and both intervals in milliseconds.
pub struct Opened {
    pub o_t_id: u32,
    pub t_o_id: u32,
    pub serial: u16,
    pub o_t_api: u32,
    pub t_o_api: u32,
}

/// Reads a success of Forward_Open for this originator.
pub fn opened(bytes: &[u8], vendor: u16, originator: u32) -> Option<Opened> {
    let (front, body) = bytes.split_first_chunk::<40>()?;
    let is_message = u16_at(front, 0) == 0x6F && u32_at(front, 8) == 0;
    let are_items = u32_at(front, 30) == 2 && u16_at(front, 34) == 0 && u16_at(front, 36) == 0xB2;
    if !is_message || !are_items || u16_at(front, 38) as usize != body.len() {
        return None;
    }
    let body = body.first_chunk::<30>()?;
    let is_success = body[0] == 0xD4 && body[2] == 0 && body[3] == 0 && body[28] == 0;
    let (o_t, t_o) = (u32_at(body, 20), u32_at(body, 24));
    let is_its = u16_at(body, 14) == vendor && u32_at(body, 16) == originator;
    let is_interval = |api: u32| (1..=10_000_000).contains(&api);
    let opened = Opened {
        o_t_id: u32_at(body, 4),
        t_o_id: u32_at(body, 8),
        serial: u16_at(body, 12),
        o_t_api: o_t.div_ceil(1_000),
        t_o_api: t_o.div_ceil(1_000),
    };
    (is_success && is_its && is_interval(o_t) && is_interval(t_o)).then_some(opened)
}

/// Puts the session and the number of a request into its frame.
pub fn address(bytes: &mut [u8], session: u32, request: u64) {
    bytes[4..8].copy_from_slice(&session.to_le_bytes());
    bytes[12..20].copy_from_slice(&request.to_le_bytes());
}

/// The header of a SendRRData message, and what is before its request.
fn begin_frame() -> Vec<u8> {
    let mut bytes = vec![0; 40];
    (bytes[0], bytes[30], bytes[36]) = (0x6F, 2, 0xB2);
    bytes
}

fn end_frame(mut bytes: Vec<u8>) -> Vec<u8> {
    let length = bytes.len() as u16;
    bytes[2..4].copy_from_slice(&(length - 24).to_le_bytes());
    bytes[38..40].copy_from_slice(&(length - 40).to_le_bytes());
    bytes
}

/// A slot's Forward_Open, without the session, the number, the id and the serial number.
pub fn open_frame(profile: &SlotProfile, vendor: u16, originator: u32) -> Vec<u8> {
    let mut bytes = begin_frame();
    bytes.extend_from_slice(&[0x54, 2, 0x20, 6, 0x24, 1, 0x0A, 0x0E, 0, 0, 0, 0, 0, 0, 0, 0, 0, 0]);
    bytes.extend_from_slice(&vendor.to_le_bytes());
    bytes.extend_from_slice(&originator.to_le_bytes());
    let size = if profile.is_owner { profile.out_len as u16 + 6 } else { 2 };
    bytes.extend_from_slice(&[profile.multiplier, 0, 0, 0]);
    bytes.extend_from_slice(&profile.o_t_rpi.to_le_bytes());
    bytes.extend_from_slice(&(0x4800 | size).to_le_bytes());
    bytes.extend_from_slice(&profile.t_o_rpi.to_le_bytes());
    bytes.extend_from_slice(&(0x4800 | (profile.in_len as u16 + 2)).to_le_bytes());
    let path = path(profile);
    bytes.extend_from_slice(&[1, path.len() as u8 / 2]);
    bytes.extend_from_slice(&path);
    end_frame(bytes)
}

/// A slot's Forward_Close, without the session, the number and the serial number.
pub fn close_frame(profile: &SlotProfile, vendor: u16, originator: u32) -> Vec<u8> {
    let mut bytes = begin_frame();
    bytes.extend_from_slice(&[0x4E, 2, 0x20, 6, 0x24, 1, 0x0A, 0x0E, 0, 0]);
    bytes.extend_from_slice(&vendor.to_le_bytes());
    bytes.extend_from_slice(&originator.to_le_bytes());
    let path = path(profile);
    bytes.extend_from_slice(&[path.len() as u8 / 2, 0]);
    bytes.extend_from_slice(&path);
    end_frame(bytes)
}

fn put_segment(bytes: &mut Vec<u8>, kind: u8, value: u32) {
    if let Ok(value) = u8::try_from(value) {
        bytes.extend_from_slice(&[kind, value]);
    } else if let Ok(value) = u16::try_from(value) {
        bytes.extend_from_slice(&[kind | 1, 0]);
        bytes.extend_from_slice(&value.to_le_bytes());
    } else {
        bytes.extend_from_slice(&[kind | 2, 0]);
        bytes.extend_from_slice(&value.to_le_bytes());
    }
}

fn path(profile: &SlotProfile) -> Vec<u8> {
    let mut bytes = Vec::new();
    put_segment(&mut bytes, 0x20, 4);
    if let Some(config) = profile.config {
        put_segment(&mut bytes, 0x24, config);
    }
    put_segment(&mut bytes, 0x2C, profile.consumed);
    put_segment(&mut bytes, 0x2C, profile.produced);
    bytes
}
