//! The same work as the index's program, over std's BTreeSet: `plain COUNT`.
use std::collections::BTreeSet;
use std::time::Instant;

const SEARCHES: u32 = 100_000;

fn key_of(i: u32) -> u64 {
    let a = (i as u64 + 1).wrapping_mul(0x9E37_79B9_7F4A_7C15);
    let b = (a ^ (a >> 30)).wrapping_mul(0xBF58_476D_1CE4_E5B9);
    let c = (b ^ (b >> 27)).wrapping_mul(0x94D0_49BB_1331_11EB);
    (c ^ (c >> 31)) >> 20
}

fn end_of(i: u32) -> u64 {
    (i as u64).wrapping_mul(0xD1B5_4A32_D192_ED03) >> 40
}

fn shuffled(i: u32, count: u32) -> u32 {
    (i as u64 * 7_368_787 % count as u64) as u32
}

fn look(set: &BTreeSet<(u64, u32, u64)>, out: &mut Vec<u32>, at: u64) {
    for i in 0..SEARCHES {
        let from = key_of(i);
        let to = from.saturating_add(175_921_860);
        for &(_, value, end) in set.range((from, 0, 0)..=(to, u32::MAX, u64::MAX)) {
            if end >= at {
                out.push(value);
            }
        }
    }
}

fn main() {
    let word = std::env::args().nth(1);
    let count: u32 = word.and_then(|w| w.parse().ok()).unwrap_or(1_000_000);
    let mut set = BTreeSet::new();
    let start = Instant::now();
    for i in 0..count {
        set.insert((key_of(i), i, end_of(i)));
    }
    println!("insert {}", start.elapsed().as_millis());
    let mut out = Vec::new();
    let start = Instant::now();
    look(&set, &mut out, 0);
    println!("search {}", start.elapsed().as_millis());
    let mut late = Vec::new();
    let start = Instant::now();
    look(&set, &mut late, 16_700_000);
    println!("search-late {}", start.elapsed().as_millis());
    let mut gone = 0;
    let start = Instant::now();
    for i in 0..count {
        let number = shuffled(i, count);
        if set.remove(&(key_of(number), number, end_of(number))) {
            gone += 1;
        }
    }
    println!("remove {}", start.elapsed().as_millis());
    println!("found {}", out.len());
    println!("found-late {}", late.len());
    println!("gone {gone}");
}
