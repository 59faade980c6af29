#!/bin/sh
# Prints how long a million inserts, look-ups and neighbours take in an index by hash and in an ordered one, and how many bytes
# each takes for a key, beside plain maps of vectors.
# Run it by hand at the top of the repository: `sh docs/index_benchmark.sh`, which proves what is not proved yet and runs what LLVM builds,
# or `KEYS=100000 sh docs/index_benchmark.sh try`, which runs fewer in a slower build that nothing was proved of.
# It writes to a temporary folder only.
set -e
rt=${RT:-rt}
keys=${KEYS:-1000000}
top=$(cd "$(dirname "$0")/.." && pwd)
copy=$(mktemp -d)
trap 'rm -r "$copy"' EXIT
mkdir -p "$copy/crates/qm_bench/src"
cp -r "$top/crates/qm_model" "$top/crates/qm_base" "$top/crates/qm_index" "$copy/crates"
grep -E '^(qm_model|qm_base|qm_index):' "$top/crates.txt" > "$copy/crates.txt"
echo 'qm_bench: qm_index' >> "$copy/crates.txt"
cp "$top/HANDLES" "$copy"
git init -q "$copy"
cat > "$copy/crates/qm_bench/src/main.rt" <<'PROGRAM'
//! Indices, and plain maps of vectors, over the same keys.
#![tactic(auto)]

use qm_index::{Factory, FourCap, Ordered, Translator, Unordered, ordered, unordered};
use std::alloc::{AllocError, Global};
use std::collections::{BTreeMap, HashMap};
use std::fs;
use std::ops::Bound;
use std::test::Fail;
use std::time::Instant;

const KEYS: u64 = 1_000_000;

// So many index keys are drawn from, so that about one key in eight meets another.
const INDEX_KEYS: u64 = 4_000_000;

// Microseconds for all keys, and how many were found.
#[derive(Clone, Copy)]
struct Times {
    inserts: u128,
    lookups: u128,
    found: u64,
}

// A plain map of vectors.
trait Plain {
    fn put(&mut self, alloc: Global, index_key: u64, i: u64) -> Result<(), AllocError>;

    fn has(&self, index_key: u64, i: u64) -> bool;
}

impl Plain for HashMap<u64, Vec<u64>> {
    fn put(&mut self, alloc: Global, index_key: u64, i: u64) -> Result<(), AllocError> {
        match self.get_mut(&index_key) {
            Some(values) => values.push(i)?,
            None => {
                self.insert(index_key, vec![in alloc; i]?)?;
            }
        }
        Ok(())
    }

    fn has(&self, index_key: u64, i: u64) -> bool {
        match self.get(&index_key) {
            Some(values) => values.as_slice().contains(&i),
            None => false,
        }
    }
}

impl Plain for BTreeMap<u64, Vec<u64>> {
    fn put(&mut self, alloc: Global, index_key: u64, i: u64) -> Result<(), AllocError> {
        match self.get_mut(&index_key) {
            Some(values) => values.push(i)?,
            None => {
                self.insert(index_key, vec![in alloc; i]?)?;
            }
        }
        Ok(())
    }

    fn has(&self, index_key: u64, i: u64) -> bool {
        match self.get(&index_key) {
            Some(values) => values.as_slice().contains(&i),
            None => false,
        }
    }
}

// The key of this number: 32 bytes, of which the first four are scattered.
fn key_of(i: u64) -> [u8; 32] {
    let mixed = i.wrapping_mul(0x9E37_79B9_7F4A_7C15);
    let mixed = (mixed ^ (mixed >> 32)).wrapping_mul(0xD6E8_FEB8_6659_FD93);
    let drawn = ((mixed >> 32) % INDEX_KEYS) as u32;
    let mut key = [0u8; 32];
    key[..4].copy_from_slice(&drawn.to_be_bytes());
    key[4..12].copy_from_slice(&i.to_be_bytes());
    key
}

// The bytes of memory that the process holds, of pages of 4,096; zero where the system does not tell.
fn resident(rt: &HostRuntime) -> u64 {
    let Ok(text) = fs::read_to_string(rt, "/proc/self/statm") else {
        return 0;
    };
    let Some(word) = text.as_str().split_ascii_whitespace().nth(1) else {
        return 0;
    };
    match word.parse::<u64>() {
        Ok(pages) => pages.saturating_mul(4096),
        Err(_) => 0,
    }
}

// How many bytes for a key the process holds beyond these.
fn bytes_since(rt: &HostRuntime, before: u64) -> u64 {
    resident(rt).saturating_sub(before) / KEYS
}

// Puts each key's number under it.
fn fill<I: Unordered<Value = u64>>(index: &mut I) -> Result<(), AllocError> {
    for i in 0..KEYS {
        index.insert(&key_of(i), i)?;
    }
    Ok(())
}

// How many keys have their number in their bucket.
fn found<I: Unordered<Value = u64>>(index: &I) -> u64 {
    let mut count = 0u64;
    for i in 0..KEYS {
        if index.bucket(&key_of(i)).contains(&i) {
            count = count.wrapping_add(1);
        }
    }
    count
}

// The same in a plain map.
fn fill_plain<M: Plain>(alloc: Global, plain: &mut M) -> Result<(), AllocError> {
    for i in 0..KEYS {
        plain.put(alloc, FourCap.index_key(&key_of(i)), i)?;
    }
    Ok(())
}

// The same in a plain map.
fn found_plain<M: Plain>(plain: &M) -> u64 {
    let mut count = 0u64;
    for i in 0..KEYS {
        if plain.has(FourCap.index_key(&key_of(i)), i) {
            count = count.wrapping_add(1);
        }
    }
    count
}

// How many values stand in the buckets behind those of all keys.
fn beside<I: Ordered<Value = u64>>(index: &I) -> u64 {
    let mut count = 0u64;
    for i in 0..KEYS {
        if let Some((values, _)) = index.next_bucket(&key_of(i)) {
            count = count.wrapping_add(values.len() as u64);
        }
    }
    count
}

// The same in a plain map.
fn beside_plain(plain: &BTreeMap<u64, Vec<u64>>) -> u64 {
    let mut count = 0u64;
    for i in 0..KEYS {
        let above = (Bound::Excluded(FourCap.index_key(&key_of(i))), Bound::Unbounded);
        let next = match plain.range(above).next() {
            Some((_, values)) => Some(values),
            None => match plain.first_key_value() {
                Some((_, values)) => Some(values),
                None => None,
            },
        };
        if let Some(values) = next {
            count = count.wrapping_add(values.len() as u64);
        }
    }
    count
}

fn time<I: Unordered<Value = u64>>(rt: &HostRuntime, index: &mut I) -> Result<Times, Fail> {
    let start = Instant::now(rt)?;
    fill(index)?;
    let inserts = start.elapsed(rt)?.as_micros();
    let start = Instant::now(rt)?;
    let found = found(index);
    let lookups = start.elapsed(rt)?.as_micros();
    Ok(Times {
        inserts,
        lookups,
        found,
    })
}

fn time_plain<M: Plain>(rt: &HostRuntime, plain: &mut M) -> Result<Times, Fail> {
    let start = Instant::now(rt)?;
    fill_plain(rt.alloc(), plain)?;
    let inserts = start.elapsed(rt)?.as_micros();
    let start = Instant::now(rt)?;
    let found = found_plain(plain);
    let lookups = start.elapsed(rt)?.as_micros();
    Ok(Times {
        inserts,
        lookups,
        found,
    })
}

// The times as text, in microseconds.
fn text(alloc: Global, times: &Times) -> Result<String, AllocError> {
    format!(in alloc; "{} microseconds to insert, {} to look up ({} found)", times.inserts, times.lookups, times.found)
}

// Prints the times of an index by hash and of a plain map.
fn by_hash(
    rt: &HostRuntime,
    index: &mut unordered::Index<FourCap, u64>,
    plain: &mut HashMap<u64, Vec<u64>>,
) -> Result<(), Fail> {
    let before = resident(rt);
    let times = text(rt.alloc(), &time(rt, index)?)?;
    println!(rt; "hash index: {}, {} bytes a key", times.as_str(), bytes_since(rt, before))?;
    let before = resident(rt);
    let times = text(rt.alloc(), &time_plain(rt, plain)?)?;
    println!(rt; "plain hash map: {}, {} bytes a key", times.as_str(), bytes_since(rt, before))?;
    println!(rt; "{KEYS} keys in {} buckets", plain.len())?;
    Ok(())
}

// The same of those in order, with neighbours.
fn in_order(
    rt: &HostRuntime,
    index: &mut ordered::Index<FourCap, u64>,
    plain: &mut BTreeMap<u64, Vec<u64>>,
) -> Result<(), Fail> {
    let before = resident(rt);
    let times = text(rt.alloc(), &time(rt, index)?)?;
    let bytes = bytes_since(rt, before);
    let start = Instant::now(rt)?;
    let count = beside(index);
    let neighbours = start.elapsed(rt)?.as_micros();
    println!(rt; "ordered index: {}, {neighbours} for neighbours ({count} values), {bytes} bytes a key", times.as_str())?;
    let before = resident(rt);
    let times = text(rt.alloc(), &time_plain(rt, plain)?)?;
    let bytes = bytes_since(rt, before);
    let start = Instant::now(rt)?;
    let count = beside_plain(plain);
    let neighbours = start.elapsed(rt)?.as_micros();
    println!(rt; "plain ordered map: {}, {neighbours} for neighbours ({count} values), {bytes} bytes a key", times.as_str())?;
    Ok(())
}

fn main(rt: HostRuntime) -> Result<(), Fail> {
    // All are there from the start and stay, so that none takes memory that another one gave back.
    let mut hash = unordered::Index::new(rt.alloc(), FourCap);
    let mut plain_hash = HashMap::new(rt.alloc());
    let mut ordered = ordered::Index::new(rt.alloc(), FourCap);
    let mut plain_ordered = BTreeMap::new(rt.alloc());
    by_hash(&rt, &mut hash, &mut plain_hash)?;
    in_order(&rt, &mut ordered, &mut plain_ordered)
}
PROGRAM
cd "$copy/crates/qm_bench"
sed -i "s/KEYS: u64 = 1_000_000/KEYS: u64 = $keys/" src/main.rt
if [ "$1" = try ]; then
    "$rt" try --steps 100000
else
    "$rt" run
fi
