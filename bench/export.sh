#!/bin/sh
# Times the proved program's `export` on a map of 65,535 boxes, beside `check` of the same map, which reads it alike: the difference is what the
# exported text takes. It prints seconds and the greatest memory of each run. A benchmark, and no test.
set -e
. "$(dirname "$0")/session_common.sh"
boxes 65535 > boxes.map
ls -l boxes.map | awk '{ print "map: " $5 " bytes" }'
for round in 1 2 3; do
    /usr/bin/time -f "check: %e s, %U of the core, %M KB at most" "$program" check boxes.map
    /usr/bin/time -f "export: %e s, %U of the core, %M KB at most" "$program" export boxes.map boxes.obj
done
ls -l boxes.obj | awk '{ print "exported text: " $5 " bytes" }'
