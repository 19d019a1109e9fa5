#!/bin/sh
# Proves and builds the measuring program over the crates algebra and exact_geom, runs it, and runs the same loops in plain Rust.
# Usage: bench/side.sh [the folder that has crates/algebra and crates/exact_geom]
set -e
here=$(cd "$(dirname "$0")" && pwd)
top=${1:-$(cd "$here/.." && pwd)}
work=$(mktemp -d)
mkdir -p "$work/crates"
for crate in algebra exact_geom; do
    mkdir "$work/crates/$crate"
    for part in src specs proofs; do cp -r "$top/crates/$crate/$part" "$work/crates/$crate/"; done
done
# The program's text stands here under other endings, so that no gate takes it for a part of the product.
mkdir -p "$work/crates/side_bench/src" "$work/crates/side_bench/proofs/main"
cp "$here/side_main.rt.txt" "$work/crates/side_bench/src/main.rt"
cp "$here/side_invariants.antt.txt" "$work/crates/side_bench/proofs/main/Invariants.antt"
printf 'algebra:\nexact_geom: algebra\nside_bench: exact_geom\n' > "$work/crates.txt"
echo 'Handles allowed: none.' > "$work/HANDLES"
(cd "$work" && git init -q . && cd crates/side_bench && rt run)
rustc -O -o "$work/side" "$here/side.rs"
echo "plain Rust:"
"$work/side"
rm -rf "$work"
