#!/bin/sh
# Prints how long 100,000 leaves take to join a tree in batches of 100, and how long as many bare hashes of the same lengths take.
# Run it by hand at the top of the repository: `sh docs/benchmark.sh`, which proves what is not proved yet and runs what LLVM builds,
# or `BATCHES=50 sh docs/benchmark.sh try`, which runs fewer in a slower build that nothing was proved of.
# It writes to a temporary folder only.
set -e
rt=${RT:-rt}
batches=${BATCHES:-1000}
top=$(cd "$(dirname "$0")/.." && pwd)
copy=$(mktemp -d)
trap 'rm -r "$copy"' EXIT
mkdir -p "$copy/crates/qm_bench/src"
cp -r "$top/crates/qm_model" "$top/crates/qm_base" "$top/crates/qm_merkle" "$copy/crates"
grep -E '^(qm_model|qm_base|qm_merkle):' "$top/crates.txt" > "$copy/crates.txt"
echo 'qm_bench: qm_base qm_merkle' >> "$copy/crates.txt"
cp "$top/HANDLES" "$copy"
git init -q "$copy"
cat > "$copy/crates/qm_bench/src/main.rt" <<'PROGRAM'
//! Leaves that join a tree in batches, and as many bare hashes.
#![tactic(auto)]

ghost use Rattle.std.specs.Prelude.{Contains};
ghost use Rattle.qm_merkle.specs.Batches.{all_layers, stops};

use qm_base::{Digest as _, Hasher as _, Location, MerkleError, Sha256, Sha256Digest};
use qm_merkle::mem::Mem;
use qm_merkle::mmr::Family;
use qm_merkle::{Family as _, StandardHasher};
use std::alloc::Global;
use std::test::Fail;
use std::time::Instant;

type Tree = Mem<Family, Sha256Digest>;

const BATCHES: u64 = 1000;

const PER_BATCH: u64 = 100;

// A leaf's bytes: an update of a key and a value of 32 bytes has as many.
const LEAF: [u8; 73] = [7; 73];

// A node's position and its two halves.
const NODE: [u8; 72] = [7; 72];

// Adds a batch of leaves to a tree.
fn grow(
    alloc: Global,
    hasher: &mut StandardHasher<Sha256>,
    tree: &mut Tree,
) -> Result<(), MerkleError> {
    let before = tree.leaves().get();
    if 1 << 40 < before {
        return Err(MerkleError::LocationOverflow(before));
    }
    let mut digests = Vec::new(alloc);
    for i in 0..PER_BATCH {
        let place = Family::location_to_position(Location::new(before + i));
        digests.push(hasher.leaf_digest(place, &LEAF)).map_err(|_| MerkleError::Memory)?;
    }
    let mut draft = tree.new_batch(alloc);
    if 1 << 40 < digests.len() {
        return Err(MerkleError::LocationOverflow(before));
    }
    draft.add_leaf_digests(&digests)?;
    let batch = draft.merkleize(alloc, tree, hasher)?;
    tree.apply_batch(&batch)?;
    Ok(())
}

// Hashes this message so many times, and adds up the digests' first bytes, so that no hash is left out.
fn hashes(hasher: &mut Sha256, message: &[u8], count: u64) -> u8 {
    let mut sum = 0u8;
    for _ in 0..count {
        hasher.start();
        hasher.update(message);
        if let Some(byte) = hasher.finish().bytes().first() {
            sum = sum.wrapping_add(*byte);
        }
    }
    sum
}

fn main(rt: HostRuntime) -> Result<(), Fail> {
    let alloc = rt.alloc();
    let mut hasher = StandardHasher::new(Sha256::new());
    let mut tree: Tree = Mem::new(alloc);
    let start = Instant::now(&rt)?;
    for _ in 0..BATCHES {
        grow(alloc, &mut hasher, &mut tree)?;
    }
    let in_batches = start.elapsed(&rt)?.as_micros();
    let leaves = tree.leaves().get();
    let inner = tree.size().get().saturating_sub(leaves);
    let mut bare = Sha256::new();
    let mut message = [0u8; 81];
    message[..73].copy_from_slice(&LEAF);
    let start = Instant::now(&rt)?;
    let sum = hashes(&mut bare, &message, leaves).wrapping_add(hashes(&mut bare, &NODE, inner));
    let alone = start.elapsed(&rt)?.as_micros();
    println!(rt; "{leaves} leaves in batches of {PER_BATCH}: {in_batches} microseconds")?;
    println!(rt; "{leaves} hashes of 81 bytes and {inner} of 72: {alone} microseconds (sum {sum})")?;
    if in_batches != 0 {
        println!(rt; "the hashes' share: {} percent", alone.saturating_mul(100) / in_batches)?;
    }
    Ok(())
}
PROGRAM
mkdir -p "$copy/crates/qm_bench/proofs/grow"
cat > "$copy/crates/qm_bench/proofs/grow/Answers.antt" <<'ANSWERS'
use Rattle.std.proofs.Common.{◌≡◌, ◌∙◌, refl, sym, ap, ap₂, arith, subst, ℕ, List, [], ◌∷◌, Contains}
use Rattle.qm_merkle.specs.Batches.{stops}
use Rattle.qm_bench.proofs.grow.Goals as goal

-- a batch on a tree leads there from the tree's leaves
Contains-base : (m n : ℕ) → Contains (m ∷ n ∷ []) n
Contains-base m n = (1, omega arith, refl)

pub apply_batch-requires : goal.apply_batch-requires
apply_batch-requires c = record {
    reach = subst (λ (ns : List ℕ). Contains (c.in_ok-batch.batch.newest.tree.leaves ∷ ns) c.args.tree.now.leaves)
        (sym (ap₂ stops
          (c.in_ok-batch.ensures.base ∙ ap (λ d. d.base) c.in_ok-add_leaf_digests.ensures.ok ∙ ap (λ d. d.base) c.new_batch-draft.ensures)
          (c.in_ok-batch.ensures.older ∙ ap (λ d. d.layers) c.in_ok-add_leaf_digests.ensures.ok ∙ ap (λ d. d.layers) c.new_batch-draft.ensures)))
        (Contains-base c.in_ok-batch.batch.newest.tree.leaves c.args.tree.now.leaves)
  }
ANSWERS
cd "$copy/crates/qm_bench"
sed -i "s/BATCHES: u64 = 1000/BATCHES: u64 = $batches/" src/main.rt
if [ "$1" = try ]; then
    "$rt" try --steps 1000
else
    "$rt" run
fi
