#!/bin/sh
# Times the proved program on a map of 65,535 boxes: reading and saving, `check`, 100,000 moves and as many undos, `tree`; and 1,000
# `group` lines on a map of 64,000. It prints seconds and the greatest memory of each run. A benchmark, and no test.
set -e
. "$(dirname "$0")/session_common.sh"
boxes 65535 > boxes.map
boxes 64000 > fewer.map
awk 'BEGIN { for (i = 0; i < 100000; i++) printf "move %d %d %d %d\n", i % 3 - 1, i % 5 - 2, i % 7 - 3, (i * 7919) % 65535 + 1 }' > moves.script
cp moves.script undone.script
awk 'BEGIN { for (i = 0; i < 100000; i++) print "undo" }' >> undone.script
awk 'BEGIN { for (i = 0; i < 1000; i++) printf "group g%d %d %d %d\n", i, 3 * i + 1, 3 * i + 2, 3 * i + 3 }' > groups.script
echo tree > tree.script
: > empty.script
ls -l boxes.map | awk '{ print "map: " $5 " bytes" }'
run "read and save" boxes.map empty.script
/usr/bin/time -f "check: %e s, %U of the core, %M KB at most" "$program" check boxes.map
run "100,000 moves" boxes.map moves.script
run "100,000 moves and as many undos" boxes.map undone.script
run "tree" boxes.map tree.script
run "read and save the map of 64,000" fewer.map empty.script
run "1,000 groups of three" fewer.map groups.script
