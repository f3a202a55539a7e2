//! The boundaries of the chunks of a generated file, found by the plain loop over the Gear hash, beside which `bench/run`
//! measures `Chunker::next_boundary`. Prints the microseconds of the fastest of three runs.
//!
//!   boundaries MIB

use std::time::Instant;

const STEP: u64 = 0x9E37_79B9_7F4A_7C15;
const TARGET: u64 = 65_536;
const MINIMUM: usize = 8_192;
const MAXIMUM: usize = 131_072;

/// The next output of SplitMix64.
fn next(state: &mut u64) -> u64 {
    *state = state.wrapping_add(STEP);
    let z = (*state ^ (*state >> 30)).wrapping_mul(0xBF58_476D_1CE4_E5B9);
    let z = (z ^ (z >> 27)).wrapping_mul(0x94D0_49BB_1331_11EB);
    z ^ (z >> 31)
}

/// The length of the first chunk. The bytes before the minimum, but for the last 64 of them, are not looked at.
fn first_chunk_len(gear: &[u64; 256], mask: u64, bytes: &[u8]) -> usize {
    let end = bytes.len().min(MAXIMUM);
    if end < MINIMUM {
        return end;
    }
    let mut hash = 0u64;
    for byte in &bytes[MINIMUM - 64..MINIMUM - 1] {
        hash = (hash << 1).wrapping_add(gear[usize::from(*byte)]);
    }
    for at in MINIMUM - 1..end {
        hash = (hash << 1).wrapping_add(gear[usize::from(bytes[at])]);
        if hash & mask == 0 {
            return at + 1;
        }
    }
    end
}

fn main() {
    let mebibytes: usize = std::env::args().nth(1).and_then(|word| word.parse().ok()).unwrap_or(64);
    let mut state = 0;
    let gear: [u64; 256] = std::array::from_fn(|_| next(&mut state));
    let mut state = 7;
    let mut bytes = Vec::with_capacity(mebibytes << 20);
    while bytes.len() < mebibytes << 20 {
        bytes.extend_from_slice(&next(&mut state).to_le_bytes());
    }
    let mask = (TARGET - 1) << (64 - TARGET.trailing_zeros());
    let mut least = u128::MAX;
    for _ in 0..3 {
        let start = Instant::now();
        let mut rest = &bytes[..];
        let mut chunks = 0u64;
        while !rest.is_empty() {
            rest = &rest[first_chunk_len(&gear, mask, rest)..];
            chunks += 1;
        }
        least = least.min(start.elapsed().as_micros());
        assert!(chunks > 0);
    }
    println!("{least}");
}
