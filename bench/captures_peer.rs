// A plain Rust `calls` (no proofs, std alone): what a user would write without us, to be timed beside `xns calls`. It prints the same lines,
// of lines of hex on standard input or of the capture that its word names.
#[path = "peer/packets.rs"]
mod packets;

use packets::{NO_SUM, be, cycle, nearest, next_line, nibble, put_words};
use std::collections::{BTreeMap, HashMap, VecDeque};
use std::fmt::{self, Display, Formatter};
use std::fs::File;
use std::io::{self, Read, Write};

// A flow: host, socket and identifier of its source, then of its target.
type Key = [u8; 20];

fn behind(key: &Key) -> Key {
    let mut other = [0; 20];
    other[..10].copy_from_slice(&key[10..]);
    other[10..].copy_from_slice(&key[..10]);
    other
}

const END: u8 = 254;
const END_REPLY: u8 = 255;

// An item, with the number up to which its packet acknowledges the other flow, and the line that brought it.
struct Item { stream: u8, last: bool, body: Vec<u8>, acknowledged: Option<u64>, line: u64 }

enum Said { Range(Vec<u8>), Behind, Message(Vec<u8>), Waiting }

struct Track { next: u64, early: BTreeMap<u64, Item>, said: Said }

// One of the two flows of a connection. What was acknowledged of it ahead of its items takes effect with a later packet of the connection.
#[derive(Default)]
struct Side { track: Option<Track>, call: Option<(u64, u64)>, closed: bool, replied: bool, ahead: VecDeque<(u64, u64)>, given: u64 }

// The first of the flows began first, from these ends.
struct Connection { number: usize, key: Key, packets: u64, sides: [Side; 2] }

#[derive(Clone, Copy)]
struct Name { line: u64, connection: usize, side: usize }

impl Name {
    fn behind(self) -> Name { Name { side: 1 - self.side, ..self } }
}

impl Display for Name {
    fn fmt(&self, f: &mut Formatter) -> fmt::Result { write!(f, "{} {}{}", self.line, self.connection, if self.side == 0 { 'a' } else { 'b' }) }
}

fn behind_mark(last: bool) -> Said { if last { Said::Message(Vec::new()) } else { Said::Waiting } }

const MOST: usize = 131_072;

// A whole message, or why it is none.
fn message(out: &mut Vec<u8>, name: &Name, d: &[u8], own: &mut Option<(u64, u64)>, asked: &mut Option<(u64, u64)>) -> Result<(), String> {
    if d.len() % 2 == 1 { return Err("OddLength".into()); }
    if d.len() < 2 { return Err("ShortMessage".into()); }
    let kind = be(&d[..2]);
    let head = match kind { 0 => 12, 1 | 3 => 6, 2 => 4, _ => return Err(format!("UnknownKind {kind}")) };
    if d.len() < head { return Err("ShortMessage".into()); }
    let transaction = be(&d[2..4]);
    write!(out, "{name} ").unwrap();
    if kind == 0 {
        *own = Some((transaction, name.line));
        write!(out, "call {transaction} program {} version {} procedure {} args ", be(&d[4..8]), be(&d[8..10]), be(&d[10..12])).unwrap();
    } else {
        let of = match *asked { Some((t, line)) if t == transaction => { *asked = None; line.to_string() } _ => "-".into() };
        match kind {
            1 => write!(out, "reject {transaction} of {of} reason {} words ", be(&d[4..6])),
            2 => write!(out, "return {transaction} of {of} results "),
            _ => write!(out, "abort {transaction} of {of} error {} args ", be(&d[4..6])),
        }.unwrap();
    }
    put_words(out, &d[head..]);
    Ok(())
}

// Hears one more item, and gives why what was said is refused.
fn hear(out: &mut Vec<u8>, name: &Name, said: &mut Said, item: Item, own: &mut Option<(u64, u64)>, asked: &mut Option<(u64, u64)>) -> Result<(), String> {
    let mut body = &item.body[..];
    if let Said::Waiting = said { *said = behind_mark(item.last); return Ok(()); }
    if let Said::Range(bytes) = said {
        let more = body.len().min(4 - bytes.len());
        bytes.extend_from_slice(&body[..more]);
        body = &body[more..];
        if bytes.len() < 4 { return if item.last { Err("BadVersions".into()) } else { Ok(()) }; }
        let (low, high) = (be(&bytes[..2]), be(&bytes[2..]));
        if high < low { return Err("BadVersions".into()); }
        if low > 3 || high < 3 { return Err("NoCommonVersion".into()); }
        *said = Said::Behind;
    }
    if let Said::Behind = said {
        if body.is_empty() {
            if item.last { *said = Said::Message(Vec::new()); }
            return Ok(());
        }
        *said = Said::Message(Vec::new());
    }
    if let Said::Message(bytes) = said {
        if bytes.len() + body.len() > MOST { return Err("TooLong".into()); }
        bytes.extend_from_slice(body);
        if item.last {
            message(out, name, bytes, own, asked)?;
            bytes.clear();
        }
    }
    Ok(())
}

impl Side {
    // The number near its next one that a field stands for.
    fn near(&self, field: u16) -> Option<u64> {
        let track = self.track.as_ref()?;
        if track.next > 1 << 48 { None } else { nearest(track.next, field) }
    }

    // The number of an item, where it is no repeat.
    fn new_number(&self, field: u16) -> Option<u64> {
        let track = self.track.as_ref()?;
        self.near(field).filter(|number| *number >= track.next && !track.early.contains_key(number))
    }

    // How far an acknowledgement brings it: not past what it keeps.
    fn reached(&self, number: Option<u64>) -> Option<u64> {
        let last = self.track.as_ref()?.early.keys().next_back()?;
        Some(number?.min(last + 1))
    }

    // What takes effect with the packet of that number in the connection.
    fn effective(&mut self, packet: u64) -> Option<u64> {
        let (_, number) = *self.ahead.front().filter(|(due, _)| *due <= packet)?;
        self.ahead.pop_front();
        self.given = self.given.max(number);
        Some(number)
    }

    // The line of the first item that it keeps, where that comes next and waits for nothing of the other flow.
    fn readable(&self, other: &Side) -> Option<u64> {
        let track = self.track.as_ref()?;
        let (number, item) = track.early.first_key_value()?;
        let is_free = match (&other.track, item.acknowledged) {
            (Some(behind), Some(number)) => number <= behind.next.max(other.given) || number - behind.next > 64,
            _ => true,
        };
        (*number <= track.next && is_free).then_some(item.line)
    }

    // The line that brought the item captured first of those that it keeps, and what that item's packet acknowledges.
    fn captured_first(&self) -> Option<(u64, Option<u64>)> {
        let item = self.track.as_ref()?.early.values().min_by_key(|item| item.line)?;
        Some((item.line, item.acknowledged))
    }
}

// Of two lines, one of each flow, the first: whether it is of the other flow.
fn first_line(own: Option<u64>, other: Option<u64>) -> Option<bool> {
    match (own, other) {
        (None, None) => None,
        (Some(own), Some(other)) => Some(other < own),
        _ => Some(other.is_some()),
    }
}

// What is printed.
struct Output { text: Vec<u8>, refused: bool }

impl Output {
    // Reads the first item that a flow keeps, if there is one up to a number.
    fn read(&mut self, name: Name, own: &mut Side, other: &mut Side, most: u64) -> bool {
        let Some(track) = &mut own.track else { return false };
        let Some(entry) = track.early.first_entry().filter(|entry| *entry.key() <= most) else { return false };
        let (number, item) = entry.remove_entry();
        self.pass_to(name, track, number);
        track.next = number + 1;
        if item.stream != 0 { return true; }
        let last = item.last;
        if let Err(reason) = hear(&mut self.text, &name, &mut track.said, item, &mut own.call, &mut other.call) {
            self.refused = true;
            writeln!(self.text, "{name} refused {reason}").unwrap();
            track.said = behind_mark(last);
        }
        true
    }

    // Passes over the items below a number.
    fn pass_to(&mut self, name: Name, track: &mut Track, number: u64) {
        if track.next >= number { return; }
        writeln!(self.text, "{name} missing {} to {}", track.next, number - 1).unwrap();
        track.next = number;
        track.said = Said::Waiting;
    }

    // Brings a flow to a number: the items below it are read, or passed over.
    fn bring(&mut self, name: Name, own: &mut Side, other: &mut Side, number: Option<u64>) {
        let Some(number) = number else { return };
        while number > 0 && self.read(name, own, other, number - 1) {}
        if let Some(track) = &mut own.track { self.pass_to(name, track, number); }
    }

    // Reads what two flows keep, while one of them has an item that can be read.
    fn settle(&mut self, name: Name, own: &mut Side, other: &mut Side) {
        while let Some(is_other) = first_line(own.readable(other), other.readable(own)) {
            if is_other { self.read(name.behind(), other, own, u64::MAX) } else { self.read(name, own, other, u64::MAX) };
        }
    }

    // Reads all that a connection keeps, in the order of its capture.
    fn end(&mut self, line: u64, connection: &mut Connection) {
        let [first, second] = &mut connection.sides;
        let line_of = |side: &Side| side.captured_first().map(|(line, _)| line);
        while let Some(is_second) = first_line(line_of(first), line_of(second)) {
            let name = Name { line, connection: connection.number, side: usize::from(is_second) };
            let (own, other) = if is_second { (&mut *second, &mut *first) } else { (&mut *first, &mut *second) };
            let reached = other.reached(own.captured_first().and_then(|(_, acknowledged)| acknowledged));
            self.bring(name.behind(), other, own, reached);
            let number = own.track.as_ref().and_then(|track| track.early.keys().next().copied());
            self.bring(name, own, other, number.map(|number| number + 1));
        }
    }
}

fn address(out: &mut Vec<u8>, b: &[u8], id: &[u8]) {
    write!(out, "{:08x}.{:012x}.{:04x} id {:04x}", be(&b[..4]), be(&b[4..10]), be(&b[10..12]), be(id)).unwrap();
}

// Where packets come from: lines of hex, or a file of Ethernet frames, classic pcap of the lower byte first.
enum Source<'a> { Lines(io::StdinLock<'a>, Vec<u8>), Capture(io::BufReader<File>) }

impl Source<'_> {
    // The next packet, if a line or a frame has one; none at the end.
    fn next(&mut self, n: &mut u64, bytes: &mut Vec<u8>, out: &mut Vec<u8>, refused: &mut bool) -> Option<bool> {
        bytes.clear();
        match self {
            Source::Lines(input, line) => {
                if !next_line(input, line) { return None; }
                *n += 1;
                if line.len() % 2 == 1 { *refused = true; writeln!(out, "{n} hex refused OddLength").unwrap(); return Some(false); }
                if let Some(p) = line.iter().position(|c| nibble(*c).is_none()) { *refused = true; writeln!(out, "{n} hex refused Digit {p}").unwrap(); return Some(false); }
                for p in line.chunks_exact(2) { bytes.push(nibble(p[0]).unwrap() << 4 | nibble(p[1]).unwrap()); }
                Some(true)
            }
            Source::Capture(input) => {
                let mut head = [0; 16];
                if input.read_exact(&mut head).is_err() { return None; }
                *n += 1;
                let count = u32::from_le_bytes([head[8], head[9], head[10], head[11]]) as usize;
                let mut ethernet = [0; 14];
                let front = count.min(14);
                input.read_exact(&mut ethernet[..front]).unwrap();
                bytes.resize(count - front, 0);
                input.read_exact(bytes).unwrap();
                Some(front == 14 && ethernet[12..] == [6, 0])
            }
        }
    }
}

fn main() {
    let stdin = io::stdin();
    let mut source = match std::env::args().nth(1) {
        Some(path) => {
            let mut input = io::BufReader::with_capacity(65536, File::open(path).unwrap());
            input.read_exact(&mut [0; 24]).unwrap();
            Source::Capture(input)
        }
        None => Source::Lines(stdin.lock(), Vec::new()),
    };
    let stdout = io::stdout();
    let mut output = io::BufWriter::with_capacity(65536, stdout.lock());
    let mut bytes = Vec::new();
    let mut out = Output { text: Vec::new(), refused: false };
    let mut n = 0u64;
    let mut places: HashMap<Key, usize> = HashMap::new();
    let mut connections: Vec<Connection> = Vec::new();
    let mut count = 0;
    while let Some(found) = source.next(&mut n, &mut bytes, &mut out.text, &mut out.refused) {
        output.write_all(&out.text).unwrap();
        out.text.clear();
        if !found { continue; }
        let have = bytes.len();
        if have < 30 { out.refused = true; writeln!(out.text, "{n} idp refused Short {have}").unwrap(); continue; }
        let length = be(&bytes[2..4]) as usize;
        let needed = length + length % 2;
        if length < 30 { out.refused = true; writeln!(out.text, "{n} idp refused LengthSmall {length}").unwrap(); continue; }
        if length > 576 { out.refused = true; writeln!(out.text, "{n} idp refused LengthLarge {length}").unwrap(); continue; }
        if have < needed { out.refused = true; writeln!(out.text, "{n} idp refused Cut {needed} {have}").unwrap(); continue; }
        let found = be(&bytes[0..2]) as u16;
        let computed = if found == NO_SUM { found } else { cycle(&bytes[2..needed]) };
        if found != computed { out.refused = true; writeln!(out.text, "{n} idp refused BadSum {found:04x} {computed:04x}").unwrap(); continue; }
        if bytes[5] != 5 { continue; }
        let b = &bytes[30..length];
        if b.len() < 12 { out.refused = true; writeln!(out.text, "{n} inner refused Short {}", b.len()).unwrap(); continue; }
        if be(&b[4..6]) == 0 { continue; }
        let mut key = [0; 20];
        key[..8].copy_from_slice(&bytes[22..30]);
        key[8..10].copy_from_slice(&b[2..4]);
        key[10..18].copy_from_slice(&bytes[10..18]);
        key[18..].copy_from_slice(&b[4..6]);
        let system = b[0] & 128 != 0;
        let place = match places.get(&key).or_else(|| places.get(&behind(&key))) {
            Some(place) => *place,
            None if system => continue,
            None => {
                places.insert(key, connections.len());
                count += 1;
                connections.push(Connection { number: count, key, packets: 0, sides: Default::default() });
                connections.len() - 1
            }
        };
        let connection = &mut connections[place];
        let (stream, field, acknowledge) = (b[1], be(&b[6..8]) as u16, be(&b[8..10]) as u16);
        let closes = stream == END || stream == END_REPLY;
        let is_over = || connection.sides.iter().all(|side| side.track.is_none() || side.closed) && connection.sides.iter().any(|side| side.replied);
        if !system && field == 0 && !closes && is_over() {
            out.end(n, connection);
            count += 1;
            *connection = Connection { number: count, key, packets: 0, sides: Default::default() };
        }
        let side = usize::from(connection.key != key);
        let name = Name { line: n, connection: connection.number, side };
        connection.packets += 1;
        let packet = connection.packets;
        let [first, second] = &mut connection.sides;
        let (own, other) = if side == 0 { (first, second) } else { (second, first) };
        if closes && !system && (own.track.is_none() || own.new_number(field).is_some()) {
            own.closed = true;
            own.replied |= stream == END_REPLY;
        }
        let acknowledged = other.near(acknowledge);
        let most_ahead = other.ahead.back().map_or(0, |(_, number)| *number);
        let ahead = acknowledged.filter(|number| *number > most_ahead && other.track.as_ref().is_some_and(|track| *number > track.next));
        let (own_due, other_due) = (own.effective(packet), other.effective(packet));
        if let Some(number) = ahead { other.ahead.push_back((packet + 64, number)); }
        let reached = other.reached(other_due);
        out.bring(name.behind(), other, own, reached);
        if !system {
            if own.track.is_none() {
                write!(out.text, "{name} flow to ").unwrap();
                address(&mut out.text, &bytes[6..18], &b[4..6]);
                out.text.extend_from_slice(b" from ");
                address(&mut out.text, &bytes[18..30], &b[2..4]);
                out.text.push(b'\n');
                let (next, said) = if field < 64 { (0, Said::Range(Vec::new())) } else { (u64::from(field), Said::Waiting) };
                own.track = Some(Track { next, early: BTreeMap::new(), said });
            }
            if let Some(number) = own.new_number(field) {
                out.bring(name, own, other, Some(number.saturating_sub(63)));
                let item = Item { stream, last: b[0] & 16 != 0, body: b[12..].to_vec(), acknowledged, line: n };
                own.track.as_mut().unwrap().early.insert(number, item);
            }
        }
        let reached = own.reached(own_due);
        out.bring(name, own, other, reached);
        out.settle(name, own, other);
    }
    for connection in &mut connections {
        out.end(n, connection);
        output.write_all(&out.text).unwrap();
        out.text.clear();
    }
    output.write_all(&out.text).unwrap();
    output.flush().unwrap();
    std::process::exit(i32::from(out.refused));
}
