#!/bin/sh
# Prints how many nodes an append brings besides its leaf, over 100,000 appends, in both families of trees: a line for each number of
# nodes, with how many appends brought so many digests. Run it by hand at the top of the repository: `sh docs/families_benchmark.sh`.
# It proves nothing: it runs what `rt try` makes, so that only the digests mean something. It writes to a temporary folder only.
set -e
rt=${RT:-rt}
appends=${APPENDS:-100000}
top=$(cd "$(dirname "$0")/.." && pwd)
copy=$(mktemp -d)
trap 'rm -r "$copy"' EXIT
mkdir -p "$copy/crates/qm_bench/src"
for crate in qm_model qm_base qm_merkle; do
    cp -r "$top/crates/$crate" "$copy/crates"
    rm -rf "$copy/crates/$crate/out"
    grep -E "^$crate:" "$top/crates.txt"
done > "$copy/crates.txt"
echo 'qm_bench: qm_base qm_merkle' >> "$copy/crates.txt"
cp "$top/HANDLES" "$copy"
git init -q "$copy"
cat > "$copy/crates/qm_bench/src/main.rt" <<'PROGRAM'
//! Leaves that join a tree one by one, and how many digests each brings.
#![tactic(auto)]

use qm_base::{Location, MerkleError, Sha256, Sha256Digest};
use qm_merkle::mem::Mem;
use qm_merkle::{Family, StandardHasher, mmb, mmr};
use std::alloc::Global;
use std::rt::HostRuntime;
use std::test::Fail;

const APPENDS: u64 = 100000;

// A leaf's bytes: an update of a key and a value of 32 bytes has as many.
const LEAF: [u8; 73] = [7; 73];

// More nodes than an append of so few leaves brings.
const MOST: usize = 20;

// Adds a leaf to the tree, and answers how many nodes were hashed besides it.
fn append<F: Family>(
    alloc: Global,
    hasher: &mut StandardHasher<Sha256>,
    tree: &mut Mem<F, Sha256Digest>,
) -> Result<usize, MerkleError> {
    let place = F::location_to_position(Location::new(tree.leaves().get()));
    let leaf = hasher.leaf_digest(place, &LEAF);
    let before = hasher.made();
    let mut draft = tree.new_batch(alloc);
    draft.add_leaf_digests(&[leaf])?;
    let batch = draft.merkleize(alloc, tree, hasher)?;
    tree.apply_batch(&batch)?;
    Ok((hasher.made() - before) as usize)
}

// How many appends brought so many nodes besides their leaf, by that number.
fn spread<F: Family>(alloc: Global) -> Result<Vec<u64>, Fail> {
    let mut hasher = StandardHasher::new(Sha256::new());
    let mut tree: Mem<F, Sha256Digest> = Mem::new(alloc);
    let mut counts = Vec::new(alloc);
    counts.resize(MOST, 0)?;
    for _ in 0..APPENDS {
        let nodes = append(alloc, &mut hasher, &mut tree)?;
        counts[nodes] += 1;
    }
    Ok(counts)
}

fn show(rt: &HostRuntime, family: &str, counts: &[u64]) -> Result<(), Fail> {
    println!(rt; "{family}: {APPENDS} appends")?;
    for (nodes, count) in counts.iter().enumerate() {
        if 0 < *count {
            println!(rt; "    {nodes} nodes besides the leaf: {count}")?;
        }
    }
    Ok(())
}

fn main(rt: HostRuntime) -> Result<(), Fail> {
    let alloc = rt.alloc();
    let counts = spread::<mmr::Family>(alloc)?;
    show(&rt, "mountain ranges", &counts)?;
    let counts = spread::<mmb::Family>(alloc)?;
    show(&rt, "delayed merges", &counts)?;
    Ok(())
}
PROGRAM
cd "$copy/crates/qm_bench"
sed -i "s/APPENDS: u64 = 100000/APPENDS: u64 = $appends/" src/main.rt
"$rt" try --steps 100000 --seconds 100
