#!/bin/sh
# Prints what canonical roots cost: 200 batches of 1,000 writes over 1,024 keys join a tree, each with its operations root, without
# canonical roots and with them; how many digests are made, and how long it takes. Run it by hand at the top of the repository:
# `sh docs/graft_benchmark.sh`. It proves nothing: it runs what `rt try` makes, so that only the digests and the ratio mean something.
# It writes to a temporary folder only.
set -e
rt=${RT:-rt}
batches=${BATCHES:-200}
top=$(cd "$(dirname "$0")/.." && pwd)
copy=${COPY:-$(mktemp -d)}
[ -n "$COPY" ] || trap 'rm -r "$copy"' EXIT
mkdir -p "$copy/crates/qm_bench/src"
for crate in qm_model qm_base qm_bits qm_merkle qm_proofs qm_chunks qm_graft; do
    cp -r "$top/crates/$crate" "$copy/crates"
    grep -E "^$crate:" "$top/crates.txt"
done > "$copy/crates.txt"
echo 'qm_bench: qm_base qm_bits qm_merkle qm_chunks qm_graft' >> "$copy/crates.txt"
cp "$top/HANDLES" "$copy"
git init -q "$copy"
cat > "$copy/crates/qm_bench/src/main.rt" <<'PROGRAM'
//! Batches of writes that join a tree of operations, with and without canonical roots.
#![tactic(auto)]

use qm_base::{Location, MerkleError, Sha256, Sha256Digest};
use qm_bits::{Chunk64, Prunable};
use qm_chunks::chunks::grafted_chunks;
use qm_graft::Grafted;
use qm_graft::grafted::height;
use qm_graft::tree::{Behind, follow};
use qm_graft::trees::canonical_root_of;
use qm_merkle::mem::Mem;
use qm_merkle::mmr::Family;
use qm_merkle::{Family as _, StandardHasher};
use std::alloc::Global;
use std::test::Fail;
use std::time::Instant;

type Tree = Mem<Family, Sha256Digest>;

type GraftedTree = Mem<Grafted<Family, Chunk64>, Sha256Digest>;

const BATCHES: u64 = 200;

const WRITES: u64 = 1000;

const KEYS: usize = 1024;

// A leaf's bytes: an update of a key and a value of 32 bytes has as many.
const LEAF: [u8; 73] = [7; 73];

// A list: its trees, its bits, and where each key is live.
#[derive(Drop)]
struct List {
    operations: Tree,
    grafted: GraftedTree,
    bits: Prunable<Chunk64>,
    places: Vec<u64>,
    seed: u64,
}

// Notes that the bit of a location changes, where its chunk is grafted already.
fn note(changed: &mut Vec<u64>, grafted: u64, location: u64) -> Result<(), MerkleError> {
    let chunk = location / 512;
    if chunk < grafted && !changed.contains(&chunk) {
        changed.push(chunk).map_err(|_| MerkleError::Memory)?;
    }
    Ok(())
}

// Adds a batch of writes and its commit, and answers its root, canonical or of the operations.
fn write(
    alloc: Global,
    hasher: &mut StandardHasher<Sha256>,
    list: &mut List,
    canonical: bool,
) -> Result<Sha256Digest, MerkleError> {
    let before = list.operations.leaves().get();
    let after = before + WRITES + 1;
    let known = list.grafted.leaves().get();
    let mut leaves = Vec::new(alloc);
    let mut changed: Vec<u64> = Vec::new(alloc);
    list.bits.extend_to(after).map_err(|_| MerkleError::Memory)?;
    list.bits.unmark(before.saturating_sub(1));
    note(&mut changed, known, before.saturating_sub(1))?;
    for at in before..after {
        let place = Family::location_to_position(Location::new(at));
        leaves.push(hasher.leaf_digest(place, &LEAF)).map_err(|_| MerkleError::Memory)?;
        if at + 1 < after {
            list.seed = list.seed.wrapping_mul(6364136223846793005).wrapping_add(1442695040888963407);
            let key = (list.seed >> 33) as usize % KEYS;
            let old = list.places[key];
            if 0 < old {
                list.bits.unmark(old);
                note(&mut changed, known, old)?;
            }
            list.places[key] = at;
        }
        list.bits.mark(at);
        note(&mut changed, known, at)?;
    }
    let mut draft = list.operations.new_batch(alloc);
    draft.add_leaf_digests(&leaves)?;
    let batch = draft.merkleize(alloc, &list.operations, hasher)?;
    list.operations.apply_batch(&batch)?;
    let root = list.operations.root(alloc, hasher, 0)?;
    if !canonical {
        return Ok(root);
    }
    let count = grafted_chunks::<Family>(height::<Chunk64>(), after);
    let draft = list.grafted.new_batch(alloc);
    let behind = Behind { bits: &list.bits, operations: &list.operations };
    let batch = follow(alloc, hasher, &list.grafted, draft, &behind, &changed, count)?;
    list.grafted.apply_batch(&batch)?;
    Ok(canonical_root_of(alloc, hasher, &root, &list.operations, &list.grafted, &list.bits, Location::new(0))?)
}

// The microseconds and digests of all batches.
fn measured(rt: &HostRuntime, alloc: Global, canonical: bool) -> Result<(u128, u64), Fail> {
    let mut hasher = StandardHasher::new(Sha256::new());
    let mut places = Vec::new(alloc);
    places.resize(KEYS, 0)?;
    let mut list = List {
        operations: Mem::new(alloc),
        grafted: Mem::new(alloc),
        bits: Prunable::new(alloc),
        places,
        seed: 1,
    };
    let start = Instant::now(rt)?;
    for _ in 0..BATCHES {
        write(alloc, &mut hasher, &mut list, canonical)?;
    }
    Ok((start.elapsed(rt)?.as_micros(), hasher.made()))
}

fn main(rt: HostRuntime) -> Result<(), Fail> {
    let alloc = rt.alloc();
    let (plain, digests) = measured(&rt, alloc, false)?;
    let (canonical, more) = measured(&rt, alloc, true)?;
    println!(rt; "{BATCHES} batches of {WRITES} writes: {plain} microseconds, {digests} digests")?;
    println!(rt; "with canonical roots: {canonical} microseconds, {more} digests")?;
    Ok(())
}
PROGRAM
cd "$copy/crates/qm_bench"
sed -i "s/BATCHES: u64 = 200/BATCHES: u64 = $batches/" src/main.rt
"$rt" try --steps 100000 --seconds 100
