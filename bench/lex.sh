#!/bin/bash
# Times the tokens of a map text of 64 MiB beside reading its file, on one core.
# Usage: bench/lex.sh [RUNS]
set -euo pipefail
here=$(cd "$(dirname "$0")" && pwd)
top=$(dirname "$here")
out=$here/out
runs=${1:-7}

# A workspace of its own, so that no gate builds the bench.
mkdir -p "$out/ws/crates"
cp "$top/HANDLES" "$out/ws/"
rm -rf "$out/ws/crates/map_lex/"{src,specs,proofs}
cp -ru "$top/crates/map_lex" "$out/ws/crates/"
# The program's text stands here under another ending, so that no gate takes it for a part of the product.
mkdir -p "$out/ws/crates/lex_speed/src"
cp "$here/lex_main.rt.txt" "$out/ws/crates/lex_speed/src/main.rt"
printf 'map_lex:\nlex_speed: map_lex\n' > "$out/ws/crates.txt"
[ -d "$out/ws/.git" ] || git init -q "$out/ws"
(cd "$out/ws/crates/lex_speed" && rt run 2>&1 | grep '^logic=') || true

[ -f "$out/map.txt" ] || python3 "$here/make_map.py" > "$out/map.txt"
cd "$out"
for _ in $(seq "$runs"); do
    /usr/bin/time -f '%U s of the core, reading the file and its tokens' \
        taskset -c "${CORE:-0}" ws/crates/lex_speed/out/lex_speed
done
