//! The version, readers, writers, rows as words and the fingerprint. The version is the one that the header says in words.
//! The given Rust has a reader and the bytes of an element at 8 and 64 bits; at 128 bits and for rows the standard library
//! stands in. The fingerprint is computed with the given product.

use oracle::api::{bytes, gf64};

use crate::inputs::{Source, boundary_words, limbs, wides, words};
use crate::library::*;
use crate::report::{Report, panics};

const SHORT: u32 = 4;
const TOO_MANY_WORDS: u32 = 6;
const LIMIT: usize = 4096;
const RANDOM: usize = 2_000;

/// What a writer leaves: the element's bytes over the first ones, or everything as it was.
fn written(before: &[u8], element: &[u8]) -> (u32, Vec<u8>) {
    let mut after = before.to_vec();
    if before.len() < element.len() {
        return (SHORT, after);
    }
    after[..element.len()].copy_from_slice(element);
    (0, after)
}

/// What a reader answers, where the given one reads or panics.
fn read<T>(before: T, given: impl Fn() -> T) -> (u32, T) {
    if panics(&given) { (SHORT, before) } else { (0, given()) }
}

/// What packing leaves: the rows' words over the first ones and their number, or everything as it was.
fn packed(rows: &[u8], before: &[u64]) -> (u32, (Vec<u64>, u64)) {
    let mut after = before.to_vec();
    let chunks = rows.chunks(8);
    let count = chunks.len();
    if count > before.len() {
        return (SHORT, (after, BEFORE_64));
    }
    for (word, chunk) in after.iter_mut().zip(chunks) {
        let mut bytes = [0; 8];
        bytes[..chunk.len()].copy_from_slice(chunk);
        *word = u64::from_le_bytes(bytes);
    }
    (0, (after, count as u64))
}

/// The version that the header says in words, as one number: three numbers below 256, the first one highest.
fn version() -> u32 {
    let header = include_str!("../../include/togasipe.h");
    let (_, text) = header.split_once("#define TOGASIPE_VERSION_TEXT \"").expect("the header says its version");
    let (text, _) = text.split_once('"').expect("the version ends");
    text.split('.').fold(0, |number, part| number << 8 | part.parse::<u32>().expect("a part is a number"))
}

fn print(words: &[u64], point: u64) -> (u32, u64) {
    if words.len() > LIMIT {
        return (TOO_MANY_WORDS, BEFORE_64);
    }
    (0, words.iter().fold(0, |sum, &word| gf64::mul(gf64::add(sum, word), point)))
}

pub fn compare(report: &mut Report) {
    report.call("version", |call| call.same((), togasipe_version(), version()));
    report.call("rijndael_read, rijndael_write", |call| {
        let mut source = Source::new("rijndael_read");
        for n in 0..=20 {
            for a in 0..=255 {
                let mut list = source.bytes(n);
                let ours = answered(list.clone(), |list| rijndael_write(a, list));
                call.same((a, &list), ours, written(&list, &bytes::bytes(a)));
                list.iter_mut().take(1).for_each(|first| *first = a);
                let oracle = read(BEFORE_8, || bytes::read(&list));
                call.same(&list, answered(BEFORE_8, |out| rijndael_read(&list, out)), oracle);
            }
        }
    });
    report.call("read_64, write_64", |call| {
        let mut source = Source::new("read_64");
        for n in 0..=20 {
            for v in words("write_64", RANDOM) {
                let list = source.bytes(n);
                let oracle = read(BEFORE_64, || gf64::read(&list));
                call.same(&list, answered(BEFORE_64, |out| read_64(&list, out)), oracle);
                let ours = answered(list.clone(), |list| write_64(v, list));
                call.same((v, &list), ours, written(&list, &gf64::bytes(v)));
            }
        }
    });
    report.call("read_128, write_128", |call| {
        let mut source = Source::new("read_128");
        for n in 0..=20 {
            for v in wides("write_128", RANDOM) {
                let list = source.bytes(n);
                let oracle = match list.first_chunk() {
                    Some(&element) => (0, limbs(u128::from_le_bytes(element))),
                    None => (SHORT, BEFORE_128),
                };
                call.same(&list, answered(BEFORE_128, |out| read_128(&list, out)), oracle);
                let ours = answered(list.clone(), |list| write_128(limbs(v), list));
                call.same((v, &list), ours, written(&list, &v.to_le_bytes()));
            }
        }
    });
    report.call("pack_rows", |call| {
        let mut source = Source::new("pack_rows");
        for n in (0..=200).chain([8 * LIMIT - 1, 8 * LIMIT, 8 * LIMIT + 1]) {
            for room in (0..=30).chain([LIMIT, LIMIT + 1]) {
                let (rows, words) = (source.bytes(n), source.words(room));
                let ours = answered((words.clone(), BEFORE_64), |(words, out)| pack_rows(&rows, words, out));
                call.same((n, room), ours, packed(&rows, &words));
            }
        }
    });
    report.call("fingerprint", |call| {
        let mut source = Source::new("fingerprint");
        for n in (0..=64).chain([LIMIT - 1, LIMIT, LIMIT + 1, LIMIT + 2, 2 * LIMIT]) {
            for point in boundary_words().into_iter().chain(source.words(8)) {
                let list = source.words(n);
                let ours = answered(BEFORE_64, |out| fingerprint(&list, point, out));
                call.same((n, point), ours, print(&list, point));
            }
        }
    });
}
