#!/bin/bash
# Counts the instructions of cutting brushes: a box without a box inside it, a brush of 126 faces split once more, two boxes
# intersected; and times 2,000 subtractions. Each count is that of all of a row: reading it, building its brushes, cutting them and
# writing what comes of it.
# Usage: bench/cutting.sh
set -euo pipefail
source "$(cd "$(dirname "$0")" && pwd)/shapes_common.sh"

echo "a box without a box inside it: $(each 20 120 of_rows differences)"
inside 'csg_ops::carving::carve'
echo "a brush of 126 faces split: $(each 1 4 of_rows splits)"
inside 'csg_ops::splitting::split'
echo "two boxes intersected: $(each 20 120 of_rows intersections)"
inside 'csg_ops::intersecting::intersect'
python3 "$here/shape_cases.py" differences 2000 > "$out/cases.txt"
/usr/bin/time -f '2,000 subtractions, all of the program: %U s of the core, %M KB at most' "$program" < "$out/cases.txt" > /dev/null
