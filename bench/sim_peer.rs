//! What `xns sim` does, as a plain Rust program does it: two ends of a connection and the network between them, a caller at one and a
//! server with a tally at the other. With `--cfg standard` each packet is summed by the standard's loop. Its lines are good ones.
#[path = "peer/end.rs"]
mod end;
#[path = "peer/packets.rs"]
mod packets;

use end::{Address, End, Item};
use std::collections::VecDeque;
use std::io::{Read, Write};
use std::{io, str};

const WINDOW: usize = 4;
const BACKLOG: usize = 16;
const LIFETIME: u64 = 30_000;

enum Shape {
    Cardinal,
    LongCardinal,
    Fields(Vec<Shape>),
}

#[derive(Clone, Debug, PartialEq)]
enum Value {
    Cardinal(u16),
    LongCardinal(u32),
    Fields(Vec<Value>),
}

struct Words<'a> {
    words: &'a [u16],
    at: usize,
}

impl Words<'_> {
    fn word(&mut self) -> Option<u16> {
        let word = *self.words.get(self.at)?;
        self.at += 1;
        Some(word)
    }

    fn value(&mut self, shape: &Shape) -> Option<Value> {
        Some(match shape {
            Shape::Cardinal => Value::Cardinal(self.word()?),
            Shape::LongCardinal => {
                let high = self.word()?;
                let low = self.word()?;
                Value::LongCardinal(u32::from(high) << 16 | u32::from(low))
            }
            Shape::Fields(parts) => {
                let mut values = Vec::new();
                for part in parts {
                    values.push(self.value(part)?);
                }
                Value::Fields(values)
            }
        })
    }
}

/// The value that all the words are.
fn read_whole(shape: &Shape, words: &[u16]) -> Option<Value> {
    let mut left = Words { words, at: 0 };
    let value = left.value(shape)?;
    (left.at == words.len()).then_some(value)
}

fn fits(shape: &Shape, value: &Value) -> bool {
    match (shape, value) {
        (Shape::Cardinal, Value::Cardinal(_)) | (Shape::LongCardinal, Value::LongCardinal(_)) => true,
        (Shape::Fields(parts), Value::Fields(values)) => {
            parts.len() == values.len() && parts.iter().zip(values).all(|(part, value)| fits(part, value))
        }
        _ => false,
    }
}

fn write(value: &Value, out: &mut Vec<u16>) {
    match value {
        Value::Cardinal(word) => out.push(*word),
        Value::LongCardinal(long) => out.extend([(long >> 16) as u16, *long as u16]),
        Value::Fields(values) => {
            for value in values {
                write(value, out);
            }
        }
    }
}

struct Procedure {
    number: u16,
    arguments: Shape,
    results: Shape,
}

struct Entry {
    program: u32,
    low: u16,
    high: u16,
    procedures: Vec<Procedure>,
}

struct Table {
    entries: Vec<Entry>,
}

impl Table {
    fn procedure(&self, program: u32, version: u16, number: u16) -> Result<&Procedure, Vec<u16>> {
        let entry = self.entries.iter().find(|entry| entry.program == program).ok_or(vec![0])?;
        if version < entry.low || version > entry.high {
            return Err(vec![1, entry.low, entry.high]);
        }
        entry.procedures.iter().find(|procedure| procedure.number == number).ok_or(vec![2])
    }
}

enum Message {
    Call { transaction: u16, program: u32, version: u16, procedure: u16, words: Vec<u16> },
    Reject { transaction: u16, reason: u16, words: Vec<u16> },
    Return { transaction: u16, words: Vec<u16> },
    Abort { transaction: u16, error: u16, words: Vec<u16> },
}

fn read_message(bytes: &[u8]) -> Option<Message> {
    if bytes.len() % 2 == 1 || bytes.len() > 131_072 {
        return None;
    }
    let words: Vec<u16> = bytes.chunks_exact(2).map(|pair| u16::from_be_bytes([pair[0], pair[1]])).collect();
    match words.as_slice() {
        [0, transaction, high, low, version, procedure, rest @ ..] => Some(Message::Call {
            transaction: *transaction,
            program: u32::from(*high) << 16 | u32::from(*low),
            version: *version,
            procedure: *procedure,
            words: rest.to_vec(),
        }),
        [1, transaction, reason, rest @ ..] => Some(Message::Reject { transaction: *transaction, reason: *reason, words: rest.to_vec() }),
        [2, transaction, rest @ ..] => Some(Message::Return { transaction: *transaction, words: rest.to_vec() }),
        [3, transaction, error, rest @ ..] => Some(Message::Abort { transaction: *transaction, error: *error, words: rest.to_vec() }),
        _ => None,
    }
}

/// The items that the words of a message go out in.
fn cut(words: &[u16], out: &mut VecDeque<Item>) {
    let bytes: Vec<u8> = words.iter().flat_map(|word| word.to_be_bytes()).collect();
    let count = bytes.len().div_ceil(534);
    for (i, body) in bytes.chunks(534).enumerate() {
        out.push_back(Item { stream: 0, attention: false, last: i + 1 == count, body: body.to_vec() });
    }
}

/// The bytes of the message that is coming in.
#[derive(Default)]
struct Incoming {
    bytes: Vec<u8>,
    is_open: bool,
    is_fresh: bool,
}

impl Incoming {
    fn feed(&mut self, item: &Item) -> Result<Option<Message>, ()> {
        if item.stream != 0 {
            return Err(());
        }
        self.bytes.extend_from_slice(&item.body);
        if !self.is_open && self.bytes.len() >= 4 {
            let low = u16::from_be_bytes([self.bytes[0], self.bytes[1]]);
            let high = u16::from_be_bytes([self.bytes[2], self.bytes[3]]);
            if low > 3 || high < 3 {
                return Err(());
            }
            self.bytes.drain(..4);
            self.is_open = true;
            self.is_fresh = true;
        }
        if self.bytes.len() > 131_072 {
            return Err(());
        }
        if !item.last {
            return Ok(None);
        }
        if self.is_fresh && self.bytes.is_empty() {
            self.is_fresh = false;
            return Ok(None);
        }
        self.is_fresh = false;
        let message = read_message(&self.bytes).ok_or(())?;
        self.bytes.clear();
        Ok(Some(message))
    }
}

fn opening() -> VecDeque<Item> {
    VecDeque::from([Item { stream: 0, attention: false, last: true, body: vec![0, 3, 0, 3] }])
}

struct Call {
    program: u32,
    version: u16,
    procedure: u16,
    arguments: Arguments,
}

enum Arguments {
    Typed(Value),
    Raw(Vec<u16>),
}

enum Seen {
    Returned(Value),
    Aborted(u16, Value),
    Rejected(u16, Vec<u16>),
}

struct Server<'a> {
    table: &'a Table,
    total: u32,
    incoming: Incoming,
    out: VecDeque<Item>,
    carried: Vec<Call>,
}

impl Server<'_> {
    fn carry_out(&mut self, procedure: u16, arguments: &Value, answer: &mut Vec<u16>, transaction: u16) {
        let amount = match (procedure, arguments) {
            (1, Value::Cardinal(number)) => u32::from(*number),
            _ => 0,
        };
        if self.total + amount > 1_000_000 {
            answer.extend([3, transaction, 1]);
        } else {
            self.total += amount;
            answer.extend([2, transaction]);
        }
        write(&Value::LongCardinal(self.total), answer);
    }

    fn feed(&mut self, item: Item) -> Result<(), ()> {
        let Some(message) = self.incoming.feed(&item)? else {
            return Ok(());
        };
        let Message::Call { transaction, program, version, procedure, words } = message else {
            return Err(());
        };
        let mut answer = Vec::new();
        match self.table.procedure(program, version, procedure) {
            Err(reject) => {
                answer.extend([1, transaction]);
                answer.extend(reject);
            }
            Ok(listed) => match read_whole(&listed.arguments, &words) {
                None => answer.extend([1, transaction, 3]),
                Some(value) => self.carry_out(procedure, &value, &mut answer, transaction),
            },
        }
        cut(&answer, &mut self.out);
        self.carried.push(Call { program, version, procedure, arguments: Arguments::Raw(words) });
        Ok(())
    }
}

struct Caller<'a> {
    table: &'a Table,
    incoming: Incoming,
    out: VecDeque<Item>,
    transaction: u16,
    waiting: Option<(u32, u16, u16)>,
    outcome: Option<Seen>,
}

impl Caller<'_> {
    fn call(&mut self, call: &Call) -> Result<(), ()> {
        let Call { program, version, procedure, arguments } = call;
        self.transaction = self.transaction.wrapping_add(1);
        let mut words = vec![0, self.transaction, (program >> 16) as u16, *program as u16, *version, *procedure];
        match arguments {
            Arguments::Typed(value) => {
                let listed = self.table.procedure(*program, *version, *procedure).map_err(|_| ())?;
                if !fits(&listed.arguments, value) {
                    return Err(());
                }
                write(value, &mut words);
            }
            Arguments::Raw(raw) => words.extend_from_slice(raw),
        }
        cut(&words, &mut self.out);
        self.waiting = Some((*program, *version, *procedure));
        Ok(())
    }

    fn feed(&mut self, item: Item) -> Result<(), ()> {
        let Some(message) = self.incoming.feed(&item)? else {
            return Ok(());
        };
        let (program, version, procedure) = self.waiting.take().ok_or(())?;
        self.outcome = Some(match message {
            Message::Reject { transaction, reason, words } if transaction == self.transaction => Seen::Rejected(reason, words),
            Message::Return { transaction, words } if transaction == self.transaction => {
                let listed = self.table.procedure(program, version, procedure).map_err(|_| ())?;
                Seen::Returned(read_whole(&listed.results, &words).ok_or(())?)
            }
            Message::Abort { transaction, error: 1, words } if transaction == self.transaction => {
                Seen::Aborted(1, read_whole(&Shape::LongCardinal, &words).ok_or(())?)
            }
            _ => return Err(()),
        });
        Ok(())
    }
}

#[derive(Clone, Copy, PartialEq)]
enum Side {
    A,
    B,
}

struct Packet {
    sender: Side,
    bytes: Vec<u8>,
    a_taken: u64,
    b_taken: u64,
    is_delivered: bool,
}

enum Event {
    Deliver(usize),
    Rest,
    Tick(Side),
    Foreign,
}

struct World<'a> {
    a: End,
    b: End,
    caller: Caller<'a>,
    server: Server<'a>,
    calls: &'a [Call],
    made: usize,
    seen: Vec<Seen>,
    bag: Vec<Packet>,
    settled: usize,
}

impl World<'_> {
    fn emit(&mut self, sender: Side, packets: Vec<Vec<u8>>) {
        for bytes in packets {
            self.bag.push(Packet { sender, bytes, a_taken: self.a.taken, b_taken: self.b.taken, is_delivered: false });
        }
    }

    fn settle_a(&mut self) -> Result<(), ()> {
        loop {
            if !self.caller.out.is_empty() {
                if self.a.is_full() {
                    break;
                }
                if let Some(item) = self.caller.out.pop_front() {
                    let _ = self.a.send(item);
                }
            } else if let Some(item) = self.a.take() {
                self.caller.feed(item)?;
            } else if let Some(seen) = self.caller.outcome.take() {
                self.seen.push(seen);
            } else if self.caller.waiting.is_none() && self.made < self.calls.len() {
                self.caller.call(&self.calls[self.made])?;
                self.made += 1;
            } else {
                break;
            }
        }
        let packets = self.a.flush();
        self.emit(Side::A, packets);
        Ok(())
    }

    fn settle_b(&mut self) -> Result<(), ()> {
        loop {
            if !self.server.out.is_empty() {
                if self.b.is_full() {
                    break;
                }
                if let Some(item) = self.server.out.pop_front() {
                    let _ = self.b.send(item);
                }
            } else if let Some(item) = self.b.take() {
                self.server.feed(item)?;
            } else {
                break;
            }
        }
        let packets = self.b.flush();
        self.emit(Side::B, packets);
        Ok(())
    }

    fn settle(&mut self, side: Side) -> Result<(), ()> {
        match side {
            Side::A => self.settle_a(),
            Side::B => self.settle_b(),
        }
    }

    fn deliver(&mut self, number: usize) -> Result<(), ()> {
        let Some(packet) = self.bag.get_mut(number) else {
            return Ok(());
        };
        if self.a.taken > packet.a_taken + LIFETIME || self.b.taken > packet.b_taken + LIFETIME {
            return Ok(());
        }
        packet.is_delivered = true;
        let (side, reply) = match packet.sender {
            Side::A => (Side::B, self.b.receive(&packet.bytes).reply),
            Side::B => (Side::A, self.a.receive(&packet.bytes).reply),
        };
        self.emit(side, reply.into_iter().collect());
        self.settle(side)
    }

    fn rest(&mut self) -> Result<(), ()> {
        while self.bag.get(self.settled).is_some_and(|packet| packet.is_delivered) {
            self.settled += 1;
        }
        for number in self.settled..self.bag.len() {
            if !self.bag[number].is_delivered {
                self.deliver(number)?;
            }
        }
        Ok(())
    }

    fn happen(&mut self, event: &Event) -> Result<(), ()> {
        match event {
            Event::Deliver(number) => self.deliver(*number),
            Event::Rest => self.rest(),
            Event::Tick(side) => {
                let packets = match side {
                    Side::A => self.a.tick(),
                    Side::B => self.b.tick(),
                };
                self.emit(*side, packets);
                self.settle(*side)
            }
            Event::Foreign => Ok(()),
        }
    }
}

fn side_of(name: &str) -> Option<Side> {
    match name {
        "a" => Some(Side::A),
        "b" => Some(Side::B),
        _ => None,
    }
}

/// Reads a line, and is `None` where it is bad.
fn read_line(line: &str, calls: &mut Vec<Call>, events: &mut Vec<Event>) -> Option<()> {
    let words: Vec<&str> = line.split(' ').collect();
    let call = |program, version, procedure, arguments| Call { program, version, procedure, arguments };
    match words.as_slice() {
        ["call", "add", number] => calls.push(call(7, 2, 1, Arguments::Typed(Value::Cardinal(number.parse().ok()?)))),
        ["call", "total"] => calls.push(call(7, 2, 2, Arguments::Typed(Value::Fields(Vec::new())))),
        ["call", "raw", program, version, procedure, raw @ ..] => {
            let raw = if raw == ["-"] { &[] } else { raw };
            let words = raw.iter().map(|word| u16::from_str_radix(word, 16).ok()).collect::<Option<Vec<_>>>()?;
            calls.push(call(program.parse().ok()?, version.parse().ok()?, procedure.parse().ok()?, Arguments::Raw(words)));
        }
        ["tick", side] => events.push(Event::Tick(side_of(side)?)),
        ["deliver", number] => events.push(Event::Deliver(number.parse().ok()?)),
        ["rest"] => events.push(Event::Rest),
        ["foreign", side, _] => {
            side_of(side)?;
            events.push(Event::Foreign);
        }
        _ if line.is_empty() || line.starts_with('#') => {}
        _ => return None,
    }
    Some(())
}

fn value_text(value: &Value) -> String {
    match value {
        Value::LongCardinal(number) => number.to_string(),
        _ => String::new(),
    }
}

fn outcome_text(seen: &Seen) -> String {
    match seen {
        Seen::Returned(value) => format!("returned {}", value_text(value)),
        Seen::Aborted(error, value) => format!("aborted {error} {}", value_text(value)),
        Seen::Rejected(reason, words) if words.is_empty() => format!("rejected {reason} -"),
        Seen::Rejected(reason, words) => {
            let words: Vec<String> = words.iter().map(|word| format!("{word:04x}")).collect();
            format!("rejected {reason} {}", words.join(" "))
        }
    }
}

fn play(calls: &[Call], events: &[Event]) -> Result<String, ()> {
    let table = Table {
        entries: vec![Entry {
            program: 7,
            low: 1,
            high: 2,
            procedures: vec![
                Procedure { number: 1, arguments: Shape::Cardinal, results: Shape::LongCardinal },
                Procedure { number: 2, arguments: Shape::Fields(Vec::new()), results: Shape::LongCardinal },
            ],
        }],
    };
    let here = Address { network: 1, host: [0, 0, 0xaa, 0, 3, 4], socket: 0x400 };
    let there = Address { network: 1, host: [0, 0, 0xaa, 0, 1, 2], socket: 5 };
    let mut world = World {
        a: End::new(true, here, 0x1234, there, 0, WINDOW, BACKLOG),
        b: End::new(false, there, 0x5678, here, 0x1234, WINDOW, BACKLOG),
        caller: Caller { table: &table, incoming: Incoming::default(), out: opening(), transaction: 0, waiting: None, outcome: None },
        server: Server { table: &table, total: 0, incoming: Incoming::default(), out: opening(), carried: Vec::new() },
        calls,
        made: 0,
        seen: Vec::new(),
        bag: Vec::new(),
        settled: 0,
    };
    world.settle_a()?;
    world.settle_b()?;
    for event in events {
        world.happen(event)?;
    }
    let mut text = format!("calls {}\ncarried {}\n", calls.len(), world.server.carried.len());
    for (place, seen) in world.seen.iter().enumerate() {
        text += &format!("{} {}\n", place + 1, outcome_text(seen));
    }
    Ok(text + &format!("total {}\npackets {}\n", world.server.total, world.bag.len()))
}

fn main() {
    let mut input = Vec::new();
    io::stdin().read_to_end(&mut input).unwrap();
    let (mut calls, mut events) = (Vec::new(), Vec::new());
    for line in str::from_utf8(&input).unwrap().lines() {
        read_line(line, &mut calls, &mut events).expect("a bad line");
    }
    let text = play(&calls, &events).expect("a fault of a session");
    io::stdout().write_all(text.as_bytes()).unwrap();
}
