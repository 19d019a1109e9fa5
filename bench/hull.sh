#!/bin/bash
# Times hulls on one core: of the 512 points of a grid, and of 67 and of 512 points near a sphere, whose facets are found and are
# too many for a solid. Each is made a thousand times.
# Usage: bench/hull.sh [RUNS]
set -euo pipefail
here=$(cd "$(dirname "$0")" && pwd)
top=$(dirname "$here")
out=$here/out/hull
runs=${1:-3}

# A workspace of its own, so that no gate builds the bench.
mkdir -p "$out/ws/crates/hull_speed/src" "$out/ws/crates/hull_speed/proofs/all_in_range"
cp "$top/HANDLES" "$out/ws/"
for crate in "$top"/crates/*/; do
    name=$(basename "$crate")
    mkdir -p "$out/ws/crates/$name"
    for part in src specs proofs; do
        rm -rf "$out/ws/crates/$name/$part"
        if [ -d "$crate$part" ]; then cp -r "$crate$part" "$out/ws/crates/$name/"; fi
    done
done
# The program's text stands here under other endings, so that no gate takes it for a part of the product.
cp "$here/hull_main.rt.txt" "$out/ws/crates/hull_speed/src/main.rt"
cp "$here/hull_invariants.antt.txt" "$out/ws/crates/hull_speed/proofs/all_in_range/Invariants.antt"
cp "$here/hull_answers.antt.txt" "$out/ws/crates/hull_speed/proofs/all_in_range/Answers.antt"
{ cat "$top/crates.txt"; echo 'hull_speed: hull_merge hull_search exact_geom algebra'; } > "$out/ws/crates.txt"
[ -d "$out/ws/.git" ] || git init -q "$out/ws"
: > "$out/ws/crates/hull_speed/stdin"
(cd "$out/ws/crates/hull_speed" && rt run 2>&1 | grep '^logic=') || true

cd "$out"
for points in grid 67 512; do
    python3 "$here/hull_points.py" "$points" > points.txt
    for _ in $(seq "$runs"); do
        /usr/bin/time -f '%U s of the core' taskset -c "${CORE:-0}" ws/crates/hull_speed/out/hull_speed
    done
done
