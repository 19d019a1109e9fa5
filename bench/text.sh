#!/bin/bash
# Times a map text of 64 MiB read as a document and written again, on one core, and the memory that it takes.
# Usage: bench/text.sh [RUNS]
set -euo pipefail
here=$(cd "$(dirname "$0")" && pwd)
top=$(dirname "$here")
out=$here/out
runs=${1:-5}

# A workspace of its own, so that no gate builds the bench.
ws=$out/ws_text
mkdir -p "$ws/crates/text_speed/src"
cp "$top/HANDLES" "$ws/"
for crate in algebra exact_geom fixed_num orient48 uv_lock map_lex map_text map_write; do
    mkdir -p "$ws/crates/$crate"
    rm -rf "$ws/crates/$crate/"{src,specs,proofs}
    for part in src specs proofs; do
        [ ! -d "$top/crates/$crate/$part" ] || cp -r "$top/crates/$crate/$part" "$ws/crates/$crate/"
    done
done
# The program's text stands here under another ending, so that no gate takes it for a part of the product.
cp "$here/text_main.rt.txt" "$ws/crates/text_speed/src/main.rt"
grep -E '^(algebra|exact_geom|fixed_num|orient48|uv_lock|map_lex|map_text|map_write):' "$top/crates.txt" > "$ws/crates.txt"
echo 'text_speed: map_text map_write exact_geom fixed_num uv_lock map_lex algebra' >> "$ws/crates.txt"
[ -d "$ws/.git" ] || git init -q "$ws"
(cd "$ws/crates/text_speed" && rt run 2>&1 | grep '^logic=') || true

[ -f "$out/map.txt" ] || python3 "$here/make_map.py" > "$out/map.txt"
cd "$out"
for _ in $(seq "$runs"); do
    /usr/bin/time -f '%U s of the core, %M KB at most' taskset -c "${CORE:-0}" ws_text/crates/text_speed/out/text_speed
done
