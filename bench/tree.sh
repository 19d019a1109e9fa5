#!/bin/bash
# Times the way from a map text of 65,535 boxes to the tree and back to the text, beside reading and writing the document alone; and
# the same of maps of groups that all lie in one chain of parents, or on one ring.
# Usage: bench/tree.sh [RUNS]
set -euo pipefail
here=$(cd "$(dirname "$0")" && pwd)
top=$(dirname "$here")
out=$here/out/tree
runs=${1:-5}

# A workspace of its own, so that no gate builds the bench.
ws=$out/ws
mkdir -p "$ws/crates/tree_speed/src"
cp "$top/HANDLES" "$ws/"
low=$(sed -n 's/^tree_file: *//p' "$top/crates.txt")
: > "$ws/crates.txt"
for crate in tree_file $low map_write; do
    [ -d "$top/crates/$crate" ] || continue
    mkdir -p "$ws/crates/$crate"
    rm -rf "$ws/crates/$crate/"{src,specs,proofs}
    for part in src specs proofs; do
        [ ! -d "$top/crates/$crate/$part" ] || cp -r "$top/crates/$crate/$part" "$ws/crates/$crate/"
    done
done
for crate in "$ws"/crates/*/; do grep "^$(basename "$crate"):" "$top/crates.txt" >> "$ws/crates.txt" || true; done
echo "tree_speed: tree_file map_write $low" | awk '{ for (i = 1; i <= NF; i++) if (!seen[$i]++) printf "%s ", $i; print "" }' >> "$ws/crates.txt"
# The program's text stands here under another ending, so that no gate takes it for a part of the product.
cp "$here/tree_main.rt.txt" "$ws/crates/tree_speed/src/main.rt"
: > "$ws/crates/tree_speed/stdin"
[ -d "$ws/.git" ] || git init -q "$ws"
(cd "$ws/crates/tree_speed" && rt run 2>&1 | grep '^logic=') || true

# The middle one of the runs for each step in milliseconds, and the tree's steps as a share of those of the document.
shares() {
    awk '
    function millis(t) { return t ~ /ms$/ ? t + 0 : t ~ /µs$/ ? t / 1e3 : t ~ /ns$/ ? t / 1e6 : t * 1e3 }
    function middle(step,   a, i, j, t, n) {
        n = count[step]
        for (i = 1; i <= n; i++) a[i] = took[step, i]
        for (i = 2; i <= n; i++) for (j = i; j > 1 && a[j] < a[j - 1]; j--) { t = a[j]; a[j] = a[j - 1]; a[j - 1] = t }
        return a[int((n + 1) / 2)]
    }
    /^(read_map|to_tree|to_doc|write_map) / { took[$1, ++count[$1]] = millis($2) }
    / KB$/ { if ($1 > most) most = $1 }
    END {
        read = middle("read_map"); tree = middle("to_tree"); doc = middle("to_doc"); write = middle("write_map")
        printf "read_map %.1f ms, to_tree %.1f ms, to_doc %.1f ms, write_map %.1f ms, at most %d KB\n", read, tree, doc, write, most
        if (read + write > 0) printf "   the tree there and back is %.2f of reading and writing, to_tree %.2f of reading, to_doc %.2f of writing\n", (tree + doc) / (read + write), tree / read, doc / write
    }'
}

cd "$out"
for map in 'boxes 65535' 'chain 5000' 'chain 20000' 'chain 40000' 'ring 20000'; do
    python3 "$here/tree_maps.py" $map > map.txt
    echo "$map: $(wc -c < map.txt) bytes"
    for _ in $(seq "$runs"); do
        /usr/bin/time -f '%M KB' taskset -c "${CORE:-0}" ws/crates/tree_speed/out/tree_speed 2>&1
    done | shares
done
