#!/bin/bash
# Counts the instructions of building a box, of building the polyhedron of 126 faces, and of a copy of it that is cut once more, and
# the same in plain Rust (bench/solids.rs). Counts are the same on a busy machine.
# Usage: bench/solids.sh
set -euo pipefail
source "$(cd "$(dirname "$0")" && pwd)/shapes_common.sh"
rustc --edition 2021 -O -o "$out/solids" "$here/solids.rs"

echo "a box, all of its row: $(each 20 120 of_rows boxes)"
echo "a polyhedron of 126 faces by 121 cuts, all of its rows: $(each 1 4 of_rows bowls)"
echo "a copy that is cut once more: $(each 10 60 of_rows copies)"
echo "plain Rust: a box $(each 100 1100 instructions "$out/solids" box), 126 faces $(each 2 12 instructions "$out/solids" bowl), a copy cut once more $(each 10 60 instructions "$out/solids" copies)"
