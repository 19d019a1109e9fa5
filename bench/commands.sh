#!/bin/sh
# Times the commands of geometry in the proved program, on a map of 60,000 boxes and on one of 600: each command a good many times on boxes
# that it names. A command's time is told apart from reading and saving by the run with an empty script. A benchmark, and no test.
set -e
. "$(dirname "$0")/session_common.sh"
boxes 60000 > boxes.map
boxes 600 > small.map
: > empty.script
# Boxes are 8 by 8 by 32, and at least 7 apart: a copy one unit along cuts a slice off
awk 'BEGIN { for (i = 0; i < 10000; i++) printf "move %d %d %d %d\n", i % 3 - 1, i % 5 - 2, i % 7 - 3, (i * 7) % 500 + 1 }' > move.script
sed 's/$/\nundo/' move.script > undo.script
awk 'BEGIN { for (i = 1; i <= 500; i++) printf "hollow 1 %d\nundo\nhollow 2 %d\nundo\nhollow 3 %d\nundo\nhollow 1 %d\nundo\n", i, i, i, i }' > hollow.script
awk 'BEGIN { for (i = 1; i <= 500; i++) { x = -4000 + 15 * ((i - 1) % 512); for (k = 1; k <= 4; k++) printf "clip both %d 0 0 %d 1 0 %d 0 1 %d\nundo\n", x + k, x + k, x + k, i } }' > clip.script
awk -v first=60001 'BEGIN { for (i = 1; i <= 500; i++) for (k = 1; k <= 4; k++) printf "copy %d 0 0 %d\nsubtract %d %d\nundo\nundo\n", k, i, first, i }' > subtract.script
sed 's/60001/601/' subtract.script > subtract_small.script
for size in boxes small; do
    echo "$size.map: $(wc -c < $size.map) bytes"
    run "nothing" $size.map empty.script
    run "10,000 moves" $size.map move.script
    run "10,000 moves, each undone" $size.map undo.script
    run "2,000 times hollow, each undone" $size.map hollow.script
    run "2,000 times clip both, each undone" $size.map clip.script
done
run "2,000 times copy and subtract, each undone" boxes.map subtract.script
run "2,000 times copy and subtract, each undone" small.map subtract_small.script
