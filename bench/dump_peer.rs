// A plain Rust `dump` of internet packets (no proofs, std alone): what a user would write without us, to be timed beside
// `xns dump`. It prints the `idp` line of each packet, the faults, the line of an Echo, Error or Packet Exchange packet that is whole, of a sequenced
// data packet its header, the number of its item and its message or words, and else the data line.
#[path = "peer/packets.rs"]
mod packets;

use packets::{NO_SUM, be, cycle, nearest, next_line, nibble, put_hex, put_words};
use std::collections::HashMap;
use std::io::{self, Write};

fn message(out: &mut Vec<u8>, n: u32, d: &[u8]) {
    let at = |place: usize| be(&d[place..place + 2]);
    let kind = if d.len() % 2 == 0 && d.len() >= 4 { at(0) } else { 4 };
    let rest = match kind {
        0 if d.len() >= 12 => { write!(out, "{n} call {} program {} version {} procedure {} args ", at(2), be(&d[4..8]), at(8), at(10)).unwrap(); &d[12..] }
        1 if d.len() >= 6 => { write!(out, "{n} reject {} reason {} words ", at(2), at(4)).unwrap(); &d[6..] }
        2 => { write!(out, "{n} return {} results ", at(2)).unwrap(); &d[4..] }
        3 if d.len() >= 6 => { write!(out, "{n} abort {} error {} args ", at(2), at(4)).unwrap(); &d[6..] }
        _ => { write!(out, "{n} words ").unwrap(); d }
    };
    put_words(out, rest);
}

fn main() {
    let stdin = io::stdin();
    let mut input = stdin.lock();
    let stdout = io::stdout();
    let mut output = io::BufWriter::new(stdout.lock());
    let (mut line, mut bytes, mut out) = (Vec::new(), Vec::new(), Vec::new());
    let mut n = 0u32;
    let mut refused = false;
    let mut items: HashMap<[u8; 20], u64> = HashMap::new();
    while next_line(&mut input, &mut line) {
        n += 1;
        out.clear();
        bytes.clear();
        if line.len() % 2 == 1 { refused = true; writeln!(out, "{n} hex refused OddLength").unwrap(); }
        else if let Some(p) = line.iter().position(|c| nibble(*c).is_none()) { refused = true; writeln!(out, "{n} hex refused Digit {p}").unwrap(); }
        else {
            for p in line.chunks_exact(2) { bytes.push(nibble(p[0]).unwrap() << 4 | nibble(p[1]).unwrap()); }
            let have = bytes.len();
            if have < 30 { refused = true; writeln!(out, "{n} idp refused Short {have}").unwrap(); }
            else {
                let length = be(&bytes[2..4]) as usize;
                let needed = length + length % 2;
                if length < 30 { refused = true; writeln!(out, "{n} idp refused LengthSmall {length}").unwrap(); }
                else if length > 576 { refused = true; writeln!(out, "{n} idp refused LengthLarge {length}").unwrap(); }
                else if have < needed { refused = true; writeln!(out, "{n} idp refused Cut {needed} {have}").unwrap(); }
                else {
                    let found = be(&bytes[0..2]) as u16;
                    let computed = if found == NO_SUM { found } else { cycle(&bytes[2..needed]) };
                    if found != computed { refused = true; writeln!(out, "{n} idp refused BadSum {found:04x} {computed:04x}").unwrap(); }
                    else {
                        write!(out, "{n} idp length {length} sum ").unwrap();
                        if found == NO_SUM { out.extend_from_slice(b"none"); } else { write!(out, "{found:04x}").unwrap(); }
                        writeln!(out, " control {} type {} to {:08x}.{:012x}.{:04x} from {:08x}.{:012x}.{:04x}", bytes[4], bytes[5],
                            be(&bytes[6..10]), be(&bytes[10..16]), be(&bytes[16..18]), be(&bytes[18..22]), be(&bytes[22..28]), be(&bytes[28..30])).unwrap();
                        let b = &bytes[30..length];
                        if bytes[5] == 5 && b.len() >= 12 {
                            writeln!(out, "{n} spp control {:02x} stream {} source {:04x} target {:04x} seq {} ack {} alloc {}", b[0], b[1], be(&b[2..4]), be(&b[4..6]), be(&b[6..8]), be(&b[8..10]), be(&b[10..12])).unwrap();
                            let mut flow = [0; 20];
                            flow[..8].copy_from_slice(&bytes[22..30]);
                            flow[8..16].copy_from_slice(&bytes[10..18]);
                            flow[16..].copy_from_slice(&b[2..6]);
                            let field = be(&b[6..8]);
                            let item = items.entry(flow).and_modify(|last| *last = nearest(*last, field as u16).unwrap_or(field)).or_insert(field);
                            writeln!(out, "{n} item {item}").unwrap();
                            let d = &b[12..];
                            if b[0] & 16 != 0 { message(&mut out, n, d); } else { write!(out, "{n} words ").unwrap(); put_words(&mut out, d); }
                        } else {
                            let rest = match bytes[5] {
                                2 if b.len() >= 2 => { write!(out, "{n} echo {} ", if b[1] == 1 { "request" } else { "reply" }).unwrap(); &b[2..] }
                                3 if b.len() >= 4 => { write!(out, "{n} error {} parameter {} quoted ", be(&b[0..2]), be(&b[2..4])).unwrap(); &b[4..] }
                                4 if b.len() >= 6 => { write!(out, "{n} exchange id {:08x} client {} body ", be(&b[0..4]), be(&b[4..6])).unwrap(); &b[6..] }
                                _ => { write!(out, "{n} data ").unwrap(); b }
                            };
                            put_hex(&mut out, rest);
                            out.push(b'\n');
                        }
                    }
                }
            }
        }
        output.write_all(&out).unwrap();
    }
    output.flush().unwrap();
    std::process::exit(i32::from(refused));
}
