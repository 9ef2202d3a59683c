// The checksum of packets of 576 bytes by the standard's loop: add with end-around carry, rotate left by one, for each
// word. Plain Rust, `rustc -O`; the peer of `bench checksum`.
#[path = "peer/packets.rs"]
mod packets;

use packets::cycle;

const SUMMED: usize = 574;
const PACKETS: usize = 1_000_000;

#[inline(never)]
fn cycle_sum(bytes: &[u8]) -> u16 {
    cycle(bytes)
}

fn main() {
    let mut bytes = [0u8; SUMMED];
    let mut state = 1u32;
    for byte in &mut bytes {
        state = state.wrapping_mul(1664525).wrapping_add(1013904223);
        *byte = (state >> 24) as u8;
    }
    let mut total = 0u64;
    for i in 0..PACKETS {
        bytes[i % SUMMED] = (i % 251) as u8;
        total = total.wrapping_add(u64::from(cycle_sum(std::hint::black_box(&bytes))));
    }
    println!("{PACKETS} packets, total {total}");
}
