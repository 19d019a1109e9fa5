# What the benchmarks of whole sessions share: the program, a folder of their own, a map of boxes, and a run with its time. It is read by them.
set -e
top=$(cd "$(dirname "$0")/.." && pwd)
program="$top/crates/brushed/out/brushed"
[ -x "$program" ] || { echo "build the program first: ./brushed" >&2; exit 1; }
folder=$(mktemp -d)
trap 'rm -rf "$folder"' EXIT
cd "$folder"
boxes() {
    awk -v count="$1" 'BEGIN {
    print "{"; print "\"classname\" \"worldspawn\""; print "\"mapversion\" \"220\""
    for (i = 0; i < count; i++) {
        x = -4000 + 15 * (i % 512); y = -4000 + 60 * int(i / 512) % 8000; z = -64
        X = x + 8; Y = y + 8; Z = z + 32
        print "{"
        printf "( %d %d %d ) ( %d %d %d ) ( %d %d %d ) WALL_%d [ 0 -1 0 0 ] [ 0 0 -1 0 ] 0 1 1\n", x, y, z, x, y + 1, z, x, y, z + 1, i % 97
        printf "( %d %d %d ) ( %d %d %d ) ( %d %d %d ) WALL_%d [ 1 0 0 0 ] [ 0 0 -1 0 ] 0 1 1\n", x, y, z, x, y, z + 1, x + 1, y, z, i % 97
        printf "( %d %d %d ) ( %d %d %d ) ( %d %d %d ) WALL_%d [ -1 0 0 0 ] [ 0 -1 0 0 ] 0 1 1\n", x, y, z, x + 1, y, z, x, y + 1, z, i % 97
        printf "( %d %d %d ) ( %d %d %d ) ( %d %d %d ) WALL_%d [ 1 0 0 0 ] [ 0 -1 0 0 ] 0 1 1\n", X, Y, Z, X, Y + 1, Z, X + 1, Y, Z, i % 97
        printf "( %d %d %d ) ( %d %d %d ) ( %d %d %d ) WALL_%d [ -1 0 0 0 ] [ 0 0 -1 0 ] 0 1 1\n", X, Y, Z, X + 1, Y, Z, X, Y, Z + 1, i % 97
        printf "( %d %d %d ) ( %d %d %d ) ( %d %d %d ) WALL_%d [ 0 1 0 0 ] [ 0 0 -1 0 ] 0 1 1\n", X, Y, Z, X, Y, Z + 1, X, Y + 1, Z, i % 97
        print "}"
    }
    print "}"
    }'
}
run() {
    title=$1 map=$2 script=$3
    status=0
    /usr/bin/time -f "$title: %e s, %U of the core, %M KB at most" "$program" edit "$map" out.map < "$script" > replies.txt || status=$?
    echo "   status $status, $(wc -l < replies.txt) lines, $(grep -c '^ok' replies.txt || true) of them ok"
}
