#!/bin/bash
# Counts the instructions of faces that motions carry with their texture locked, and the same in plain Rust (bench/motions.rs).
# Usage: bench/motions.sh
set -euo pipefail
source "$(cd "$(dirname "$0")" && pwd)/shapes_common.sh"
rustc --edition 2021 -O -o "$out/motions" "$here/motions.rs"

echo "a face carried, all of its row: $(each 48 528 of_rows motions)"
inside 'uv_lock::carrying::carry'
inside 'orient48::motion::Motion::plane'
echo "plain Rust, 48 faces: $(each 10 110 instructions "$out/motions")"
inside 'motions::carry'
inside 'motions::plane'
