# What bench/solids.sh, bench/cutting.sh and bench/motions.sh share.
here=$(cd "$(dirname "${BASH_SOURCE[0]}")" && pwd)
top=$(dirname "$here")
out=$here/out/shapes
program=$top/crates/part_rows/out/part_rows
mkdir -p "$out"
[ -x "$program" ] || (cd "$top/crates/part_rows" && rt run > /dev/null)

# The instructions of a command, as callgrind counts them.
instructions() {
    valgrind --tool=callgrind --callgrind-out-file="$out/last.callgrind" "$@" 2>&1 > "$out/last.txt" | awk '/Collected/ { print $4 }'
}

# The instructions that the proved program takes for N cases of a kind.
of_rows() {
    python3 "$here/shape_cases.py" "$1" "$2" > "$out/cases.txt"
    instructions "$program" < "$out/cases.txt"
}

# What one more takes: a command whose last word is a number, run for A and for B.
each() {
    local a=$1 b=$2 few many
    few=$("${@:3}" "$a")
    many=$("${@:3}" "$b")
    echo "$(((many - few) / (b - a)))"
}

# The instructions inside the calls of a function whose name has a word, in the last run, and how many calls there were.
inside() {
    callgrind_annotate --inclusive=yes --threshold=100 "$out/last.callgrind" | grep -a -F "$1" | head -1 | sed 's/^ *//; s/ \[.*//' || echo "($1 is compiled into its caller)"
}
