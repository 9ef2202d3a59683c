//! What `bench exchange` does, as a plain Rust program does it: two ends of a connection exchange items, each packet summed, written, read and answered.
//! The checksum is in lanes, or with `--cfg standard` the standard's loop.
#[path = "peer/end.rs"]
mod end;
#[path = "peer/packets.rs"]
mod packets;

use end::{Address, End, Item};

const ROUND: usize = 51;
const ROUNDS: usize = 1285;
const FIRST_LOST: usize = 44;
const WINDOW: usize = 64;
const BACKLOG: usize = 64;
fn deliver(packet: &[u8], from: &mut End, to: &mut End) {
    if let Some(reply) = to.receive(packet).reply {
        from.receive(&reply);
    }
}

/// What the way does to the packets of a round: all come in order, every second one comes after the others, or the last seven are lost.
#[derive(Clone, Copy)]
enum Way {
    Ordered,
    Late,
    Lossy,
}

#[derive(Clone, Copy, PartialEq, Eq)]
enum Fate {
    InTurn,
    Late,
    Lost,
}

impl Way {
    fn fate(self, place: usize) -> Fate {
        match self {
            Way::Late if place % 2 == 1 => Fate::Late,
            Way::Lossy if place >= FIRST_LOST => Fate::Lost,
            Way::Ordered | Way::Late | Way::Lossy => Fate::InTurn,
        }
    }
}

/// Items handed up, packets with items that went out, and of those the late, the lost, and the ones that a tick sent again.
#[derive(Default)]
struct Tally {
    handed: usize,
    packets: usize,
    late: usize,
    lost: usize,
    again: usize,
}

/// Sends a round of items from one end to the other, which hands them up. Once the packets have come, both ends tick.
fn exchange(from: &mut End, to: &mut End, way: Way, tally: &mut Tally) {
    for _ in 0..ROUND {
        let _ = from.send(Item { stream: 0, attention: false, last: true, body: vec![0x5a; 534] });
    }
    let packets = from.flush();
    for (place, packet) in packets.iter().enumerate() {
        match way.fate(place) {
            Fate::InTurn => deliver(packet, from, to),
            Fate::Late => tally.late += 1,
            Fate::Lost => tally.lost += 1,
        }
    }
    for (place, packet) in packets.iter().enumerate() {
        if way.fate(place) == Fate::Late {
            deliver(packet, from, to);
        }
    }
    let again = tick(from, to) + tick(to, from);
    tally.again += again;
    tally.packets += packets.len() + again;
    tally.handed += (0..ROUND).filter(|_| to.take().is_some()).count();
}

/// Delivers what an end sends once time has passed, and says how many packets that were.
fn tick(from: &mut End, to: &mut End) -> usize {
    let packets = from.tick();
    for packet in &packets {
        deliver(packet, from, to);
    }
    packets.len()
}

/// Opens a connection and exchanges the items.
fn connection(way: Way) -> Tally {
    let here = Address { network: 1, host: [0, 0, 0xaa, 0, 3, 4], socket: 0x400 };
    let there = Address { network: 1, host: [0, 0, 0xaa, 0, 1, 2], socket: 5 };
    let mut caller = End::new(true, here, 0x1234, there, 0, WINDOW, BACKLOG);
    let mut server = End::new(false, there, 0x5678, here, 0x1234, WINDOW, BACKLOG);
    tick(&mut caller, &mut server);
    let mut tally = Tally::default();
    for _ in 0..ROUNDS {
        exchange(&mut caller, &mut server, way, &mut tally);
        exchange(&mut server, &mut caller, way, &mut tally);
    }
    tally
}

fn main() {
    let words: Vec<String> = std::env::args().collect();
    let way = match words.get(1).map(String::as_str) {
        Some("late") => Way::Late,
        Some("lossy") => Way::Lossy,
        _ => Way::Ordered,
    };
    let times = words.get(2).map_or(1, |word| word.parse().unwrap_or(1));
    for _ in 0..times {
        let Tally { handed, packets, late, lost, again } = connection(way);
        println!("handed up {handed} of {packets} packets: {late} late, {lost} lost, {again} sent again");
    }
}
