//! Turns the rows of a coach's map around, and prints the map's fingerprint before and after. The map is on standard
//! input, one byte a row.
//!
//!     cargo run --release --example swap_seats < coach.map

use std::error::Error;
use std::io::{self, Read};

use togasipe::{ByteMatrix, Refusal, fingerprint, pack_rows};

/// The map that turns a row of eight seats around.
const SWAP: ByteMatrix = ByteMatrix::from_quadword(0x8040_2010_0804_0201);

/// The point of the fingerprint.
const POINT: u64 = 0x2a;

/// The fingerprint of a map, as the program `seats` has it.
fn print_of(map: &[u8]) -> Result<u64, Refusal> {
    let mut words = vec![0; map.len().div_ceil(8)];
    let count = pack_rows(map, &mut words)?;
    fingerprint(&words[..count], POINT)
}

fn main() -> Result<(), Box<dyn Error>> {
    let mut map = Vec::new();
    io::stdin().read_to_end(&mut map)?;
    println!("fingerprint before  {:016x}", print_of(&map)?);
    SWAP.apply_slice(&mut map);
    println!("fingerprint after   {:016x}", print_of(&map)?);
    Ok(())
}
