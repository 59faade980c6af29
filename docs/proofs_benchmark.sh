#!/bin/sh
# Prints what proofs of keys cost: how long it takes to make one and to check it, how many digests each makes and the proof lists, and
# how long a digest takes. Run it by hand at the top of the repository: `sh docs/proofs_benchmark.sh`. It proves nothing: it runs what
# `rt try` makes, whose every step is looked at, so that only the digests and the ratios mean something, and lists are of at most
# MOST=1000 operations. `COPY=FOLDER MOST=1000000` leaves the sources in a folder, for a build without these looks.
# It writes to a temporary folder only, or to that one.
set -e
rt=${RT:-rt}
most=${MOST:-1000}
top=$(cd "$(dirname "$0")/.." && pwd)
copy=${COPY:-$(mktemp -d)}
[ -n "$COPY" ] || trap 'rm -r "$copy"' EXIT
mkdir -p "$copy/crates/qm_bench/src"
for crate in qm_model qm_base qm_operations qm_bits qm_merkle qm_proofs qm_chunks qm_graft qm_keyproofs qm_makers; do
    cp -r "$top/crates/$crate" "$copy/crates"
    grep -E "^$crate:" "$top/crates.txt"
done > "$copy/crates.txt"
echo 'qm_bench: qm_base qm_operations qm_bits qm_merkle qm_graft qm_keyproofs qm_makers' >> "$copy/crates.txt"
cp "$top/HANDLES" "$copy"
git init -q "$copy"
cat > "$copy/crates/qm_bench/src/main.rt" <<'PROGRAM'
//! Proofs of keys of unordered databases, made and checked.
#![tactic(auto)]

use qm_base::{ByteKey, ByteString, ByteValue, Location, MerkleError, Sha256, Sha256Digest, eight_bytes};
use qm_bits::{Chunk32, Prunable};
use qm_graft::Grafted;
use qm_graft::trees::{build_grafted_tree, canonical_root_of};
use qm_keyproofs::unordered::{KeyValueProof, verify_key_value_proof};
use qm_makers::Parts;
use qm_merkle::mem::Mem;
use qm_merkle::mmr::Family;
use qm_merkle::{Family as _, StandardHasher};
use qm_operations::{Operation, Unordered, VariableEncoding};
use std::alloc::Global;
use std::test::Fail;
use std::time::Instant;

type Encoding = VariableEncoding<ByteValue>;

type Update = Unordered<ByteKey, Encoding>;

type Hashing = StandardHasher<Sha256>;

type Proof = KeyValueProof<Family, Chunk32, Sha256Digest>;

// How many proofs are made of each list.
const PROOFS: u64 = 1000;

// How many digests are timed.
const DIGESTS: u64 = 10000;

// How many operations the longest list has.
const MOST: u64 = 1000000;

// A list of updates of as many keys, each active, with its roots.
#[derive(Drop)]
struct List {
    operations: Mem<Family, Sha256Digest>,
    grafted: Mem<Grafted<Family, Chunk32>, Sha256Digest>,
    bits: Prunable<Chunk32>,
    ops_root: Sha256Digest,
    root: Sha256Digest,
}

// What calls took: microseconds, digests made, at most and in all, and digests listed.
#[derive(Drop)]
struct Taken {
    micros: u128,
    most: u64,
    all: u64,
    listed: u64,
    most_listed: u64,
}

// 32 bytes that tell a number.
fn bytes_of(number: u64) -> [u8; 32] {
    let mut bytes = [7u8; 32];
    for (at, byte) in eight_bytes(number).iter().enumerate() {
        bytes[at] = *byte;
    }
    bytes
}

fn key(alloc: Global, at: u64) -> Result<ByteKey, MerkleError> {
    ByteKey::from_bytes(alloc, &bytes_of(at)).map_err(|_| MerkleError::Memory)
}

fn value(alloc: Global, at: u64) -> Result<ByteValue, MerkleError> {
    ByteValue::from_bytes(alloc, &bytes_of(at + 1)).map_err(|_| MerkleError::Memory)
}

fn list_of(alloc: Global, hasher: &mut Hashing, size: u64) -> Result<List, MerkleError> {
    let mut leaves = Vec::new(alloc);
    let mut bits = Prunable::new(alloc);
    bits.extend_to(size).map_err(|_| MerkleError::Memory)?;
    for at in 0..size {
        let place = Family::location_to_position(Location::new(at));
        let operation: Operation<Family, Update> = Operation::Update(Unordered(key(alloc, at)?, value(alloc, at)?));
        leaves.push(hasher.leaf_digest_of(place, &operation)).map_err(|_| MerkleError::Memory)?;
        bits.mark(at);
    }
    let mut operations: Mem<Family, Sha256Digest> = Mem::new(alloc);
    let mut draft = operations.new_batch(alloc);
    draft.add_leaf_digests(&leaves)?;
    let batch = draft.merkleize(alloc, &operations, hasher)?;
    operations.apply_batch(&batch).map_err(|_| MerkleError::Memory)?;
    let ops_root = operations.root(alloc, hasher, 0)?;
    let grafted = build_grafted_tree(alloc, hasher, &operations, &bits, Vec::new(alloc))?;
    let floor = Location::new(0);
    let root = canonical_root_of(alloc, hasher, &ops_root, &operations, &grafted, &bits, floor).map_err(|_| MerkleError::Memory)?;
    Ok(List { operations, grafted, bits, ops_root, root })
}

// The location of a proof's key: these are spread over the list.
fn location_of(number: u64, size: u64) -> u64 {
    number.wrapping_mul(0x9e3779b97f4a7c15) % size
}

fn most_of(taken: &mut Taken, made: u64) {
    taken.most = taken.most.max(made);
    taken.all += made;
}

fn made(rt: &HostRuntime, alloc: Global, hasher: &mut Hashing, list: &List, size: u64) -> Result<(Vec<Proof>, Taken), Fail> {
    let parts = Parts {
        ops_root: &list.ops_root,
        operations: &list.operations,
        grafted: &list.grafted,
        bits: &list.bits,
        floor: Location::new(0),
    };
    let mut proofs = Vec::new(alloc);
    let mut taken = Taken { micros: 0, most: 0, all: 0, listed: 0, most_listed: 0 };
    let start = Instant::now(rt)?;
    for number in 0..PROOFS {
        let before = hasher.made();
        proofs.push(parts.operation_proof(alloc, hasher, Location::new(location_of(number, size)))?)?;
        most_of(&mut taken, hasher.made() - before);
    }
    taken.micros = start.elapsed(rt)?.as_micros();
    for proof in &proofs {
        let listed = proof.range_proof.proof.digests.len() as u64;
        taken.listed += listed;
        taken.most_listed = taken.most_listed.max(listed);
    }
    Ok((proofs, taken))
}

fn checked(rt: &HostRuntime, alloc: Global, hasher: &mut Hashing, list: &List, proofs: &[Proof]) -> Result<(u64, Taken), Fail> {
    let mut taken = Taken { micros: 0, most: 0, all: 0, listed: 0, most_listed: 0 };
    let mut shown = 0;
    let start = Instant::now(rt)?;
    for proof in proofs {
        let before = hasher.made();
        let key = key(alloc, proof.loc.get())?;
        let value = value(alloc, proof.loc.get())?;
        if verify_key_value_proof::<Family, Chunk32, Sha256, ByteKey, Encoding>(hasher, &key, &value, proof, &list.root) {
            shown += 1;
        }
        let here = hasher.made() - before;
        most_of(&mut taken, here);
        // by how much the digests that are made pass those that are listed, at most
        taken.most_listed = taken.most_listed.max(here.saturating_sub(proof.range_proof.proof.digests.len() as u64));
    }
    taken.micros = start.elapsed(rt)?.as_micros();
    Ok((shown, taken))
}

// The microseconds of so many digests of two digests.
fn hashed(rt: &HostRuntime, hasher: &mut Hashing, first: &Sha256Digest) -> Result<u128, Fail> {
    let mut digest = *first;
    let start = Instant::now(rt)?;
    for _ in 0..DIGESTS {
        digest = hasher.node_digest(1, &digest, first);
    }
    Ok(start.elapsed(rt)?.as_micros())
}

fn tell(rt: &HostRuntime, alloc: Global, size: u64) -> Result<(), Fail> {
    let mut hasher = StandardHasher::new(Sha256::new());
    let list = list_of(alloc, &mut hasher, size)?;
    let (proofs, making) = made(rt, alloc, &mut hasher, &list, size)?;
    let (shown, checking) = checked(rt, alloc, &mut hasher, &list, &proofs)?;
    let digests = hashed(rt, &mut hasher, &list.root)?;
    println!(rt; "{size} operations, {shown} of {PROOFS} proofs shown, all in all:")?;
    println!(rt; "  listed: {} digests, {} at most", making.listed, making.most_listed)?;
    println!(rt; "  made in {} microseconds, {} digests, {} at most", making.micros, making.all, making.most)?;
    println!(rt; "  checked in {} microseconds, {} digests, {} at most, {} more than are listed at most", checking.micros, checking.all, checking.most, checking.most_listed)?;
    println!(rt; "  {DIGESTS} digests of nodes in {digests} microseconds")?;
    Ok(())
}

fn main(rt: HostRuntime) -> Result<(), Fail> {
    let alloc = rt.alloc();
    for size in [1000, 10000, 100000, 1000000] {
        if size <= MOST {
            tell(&rt, alloc, size)?;
        }
    }
    Ok(())
}
PROGRAM
cd "$copy/crates/qm_bench"
sed -i "s/MOST: u64 = 1000000/MOST: u64 = $most/" src/main.rt
"$rt" try --steps 100000 --seconds 500
