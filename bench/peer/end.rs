//! One end of a connection in plain Rust: each packet is summed, written, read and answered. The checksum is in lanes, or with
//! `--cfg standard` the standard's loop.
#![allow(dead_code)]

#[cfg(standard)]
use crate::packets::cycle;
use crate::packets::nearest;
use std::collections::VecDeque;

const MOST_ITEMS: u64 = 1 << 48;

#[derive(Clone, Copy)]
pub struct Address {
    pub network: u32,
    pub host: [u8; 6],
    pub socket: u16,
}

pub struct Item {
    pub stream: u8,
    pub attention: bool,
    pub last: bool,
    pub body: Vec<u8>,
}

#[inline]
fn word(bytes: &[u8], place: usize) -> u16 {
    u16::from_be_bytes([bytes[place], bytes[place + 1]])
}

/// The standard's loop.
#[cfg(standard)]
#[inline]
fn sum(bytes: &[u8]) -> u16 {
    cycle(bytes)
}

/// In 16 lanes, since the weights of words repeat after 16; the lanes are filled from the end.
#[cfg(not(standard))]
#[inline]
fn sum(bytes: &[u8]) -> u16 {
    let head = bytes.len() / 2 % 16;
    let mut lanes = [0u32; 16];
    for (lane, pair) in lanes[16 - head..].iter_mut().zip(bytes.chunks_exact(2)) {
        *lane += u32::from(word(pair, 0));
    }
    for block in bytes[2 * head..].chunks_exact(32) {
        for (lane, pair) in lanes.iter_mut().zip(block.chunks_exact(2)) {
            *lane += u32::from(word(pair, 0));
        }
    }
    let weighed = lanes.iter().enumerate().map(|(place, lane)| u64::from(*lane) << (16 - place));
    (weighed.sum::<u64>() % 65535) as u16
}

#[inline]
fn write_address(out: &mut Vec<u8>, address: &Address) {
    out.extend_from_slice(&address.network.to_be_bytes());
    out.extend_from_slice(&address.host);
    out.extend_from_slice(&address.socket.to_be_bytes());
}

#[inline]
fn read_address(bytes: &[u8]) -> Address {
    Address {
        network: u32::from_be_bytes(bytes[0..4].try_into().unwrap()),
        host: bytes[4..10].try_into().unwrap(),
        socket: word(bytes, 10),
    }
}

/// Why a packet's item was neither taken nor kept.
pub enum Dropped {
    NotIdp,
    NotSpp,
    NotOurs,
    AheadOfUs,
    OutOfOrder,
    NoRoom,
    Repeat,
}

/// What became of a packet: how many items were taken, the packet to send back, and why its item was not taken or kept.
pub struct Received {
    pub took: usize,
    pub reply: Option<Vec<u8>>,
    pub dropped: Option<Dropped>,
}

impl Received {
    #[inline]
    fn dropped(dropped: Dropped) -> Received {
        Received { took: 0, reply: None, dropped: Some(dropped) }
    }
}

pub struct End {
    is_initiator: bool,
    own: Address,
    id: u16,
    peer: Address,
    peer_id: u16,
    window: usize,
    backlog: usize,
    unacknowledged: VecDeque<Item>,
    slots: VecDeque<Option<Item>>,
    accepted: u64,
    acknowledged: u64,
    sent: u64,
    allowed: u64,
    pub taken: u64,
    handed: u64,
}

impl End {
    #[inline]
    pub fn new(is_initiator: bool, own: Address, id: u16, peer: Address, peer_id: u16, window: usize, backlog: usize) -> End {
        End {
            is_initiator,
            own,
            id,
            peer,
            peer_id,
            window,
            backlog,
            unacknowledged: VecDeque::with_capacity(backlog),
            slots: (0..window).map(|_| None).collect(),
            accepted: 0,
            acknowledged: 0,
            sent: 0,
            allowed: 0,
            taken: 0,
            handed: 0,
        }
    }

    #[inline]
    fn top(&self) -> u64 {
        (self.handed + self.window as u64 - 1).min(MOST_ITEMS - 1)
    }

    #[inline]
    fn write(&self, control: u8, stream: u8, sequence: u64, body: &[u8]) -> Vec<u8> {
        let length = 42 + body.len();
        let mut out = Vec::with_capacity(length + length % 2);
        out.extend_from_slice(&[0, 0]);
        out.extend_from_slice(&(length as u16).to_be_bytes());
        out.extend_from_slice(&[0, 5]);
        write_address(&mut out, &self.peer);
        write_address(&mut out, &self.own);
        out.push(control);
        out.push(stream);
        for field in [self.id, self.peer_id, sequence as u16, self.taken as u16, self.top() as u16] {
            out.extend_from_slice(&field.to_be_bytes());
        }
        out.extend_from_slice(body);
        if length % 2 == 1 {
            out.push(0);
        }
        let sum = sum(&out[2..]);
        out[..2].copy_from_slice(&sum.to_be_bytes());
        out
    }

    #[inline]
    pub fn send(&mut self, item: Item) -> Result<(), Item> {
        let size = item.body.len();
        if size > 534 || item.attention && size != 1 || self.accepted == MOST_ITEMS || self.unacknowledged.len() == self.backlog {
            return Err(item);
        }
        self.unacknowledged.push_back(item);
        self.accepted += 1;
        Ok(())
    }

    /// Whether no further item is accepted.
    #[inline]
    pub fn is_full(&self) -> bool {
        self.unacknowledged.len() == self.backlog || self.accepted == MOST_ITEMS
    }

    #[inline]
    pub fn flush(&mut self) -> Vec<Vec<u8>> {
        if self.peer_id == 0 {
            return Vec::new();
        }
        let limit = self.accepted.min(self.allowed);
        let mut packets = Vec::new();
        for number in self.sent..limit {
            let item = &self.unacknowledged[(number - self.acknowledged) as usize];
            let control = 64 + if item.attention { 32 } else { 0 } + if item.last { 16 } else { 0 };
            packets.push(self.write(control, item.stream, number, &item.body));
        }
        self.sent = limit;
        packets
    }

    /// The packets not yet acknowledged, or one that asks for a reply where none may go out.
    #[inline]
    pub fn tick(&mut self) -> Vec<Vec<u8>> {
        let limit = self.accepted.min(self.allowed);
        if self.peer_id == 0 || limit <= self.acknowledged && self.acknowledged < self.accepted {
            return vec![self.write(192, 0, self.sent, &[])];
        }
        self.sent = self.sent.min(self.acknowledged);
        self.flush()
    }

    #[inline]
    fn is_ours(&self, target: &Address, source: &Address, header: &[u8]) -> bool {
        let (source_id, target_id) = (word(header, 2), word(header, 4));
        let is_from_peer = source.host == self.peer.host && source.socket == self.peer.socket && source_id == self.peer_id;
        target.host == self.own.host
            && target.socket == self.own.socket
            && if !self.is_initiator {
                (target_id == self.id || target_id == 0) && is_from_peer
            } else if self.peer_id != 0 {
                target_id == self.id && is_from_peer
            } else {
                target_id == self.id && source.host == self.peer.host && source_id != 0
            }
    }

    /// Takes in a packet, and says what became of it.
    #[inline]
    pub fn receive(&mut self, bytes: &[u8]) -> Received {
        if bytes.len() < 30 {
            return Received::dropped(Dropped::NotIdp);
        }
        let length = usize::from(word(bytes, 2));
        let even = length + length % 2;
        if length < 30 || length > 576 || bytes.len() < even {
            return Received::dropped(Dropped::NotIdp);
        }
        let found = word(bytes, 0);
        if found != 65535 && found != sum(&bytes[2..even]) {
            return Received::dropped(Dropped::NotIdp);
        }
        if bytes[5] != 5 || length < 42 {
            return Received::dropped(Dropped::NotSpp);
        }
        let (target, source) = (read_address(&bytes[6..18]), read_address(&bytes[18..30]));
        let header = &bytes[30..42];
        if !self.is_ours(&target, &source, header) {
            return Received::dropped(Dropped::NotOurs);
        }
        let sequence = nearest(self.taken, word(header, 6));
        let acknowledge = nearest(self.sent, word(header, 8));
        let allocation = nearest(self.sent, word(header, 10));
        if acknowledge.is_some_and(|number| number > self.sent) {
            return Received::dropped(Dropped::AheadOfUs);
        }
        if self.peer_id == 0 {
            self.peer = source;
            self.peer_id = word(header, 2);
        }
        while acknowledge.is_some_and(|number| self.acknowledged < number) {
            self.unacknowledged.pop_front();
            self.acknowledged += 1;
        }
        if let Some(number) = allocation {
            self.allowed = self.allowed.max(number + 1);
        }
        let target_id = word(header, 4);
        let (mut took, mut dropped) = (0, None);
        if header[0] & 128 == 0 && target_id != 0 {
            match self.keep(sequence, header, &bytes[42..length]) {
                Ok(count) => took = count,
                Err(reason) => dropped = Some(reason),
            }
        }
        let wants_reply = header[0] & 64 != 0 || target_id == 0;
        Received { took, reply: wants_reply.then(|| self.write(128, 0, self.sent, &[])), dropped }
    }

    /// Keeps an item for which there is room, and takes those whose turn has come: how many, or why the item is not kept.
    #[inline]
    fn keep(&mut self, sequence: Option<u64>, header: &[u8], body: &[u8]) -> Result<usize, Dropped> {
        let top = self.top();
        let number = match sequence {
            Some(number) if self.taken <= number => number,
            _ => return Err(Dropped::Repeat),
        };
        if number > top {
            return Err(if number == self.taken { Dropped::NoRoom } else { Dropped::OutOfOrder });
        }
        let slot = &mut self.slots[(number - self.handed) as usize];
        if slot.is_some() {
            return Err(Dropped::Repeat);
        }
        *slot = Some(Item {
            stream: header[1],
            attention: header[0] & 32 != 0,
            last: header[0] & 16 != 0,
            body: body.to_vec(),
        });
        let before = self.taken;
        while self.taken <= top && self.slots[(self.taken - self.handed) as usize].is_some() {
            self.taken += 1;
        }
        Ok((self.taken - before) as usize)
    }

    #[inline]
    pub fn take(&mut self) -> Option<Item> {
        if self.handed == self.taken {
            return None;
        }
        self.handed += 1;
        let first = self.slots.pop_front();
        self.slots.push_back(None);
        first.flatten()
    }
}
