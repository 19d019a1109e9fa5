#!/usr/bin/env python3
"""Points for bench/hull.sh: N points near a sphere, on a spiral, or the 512 points of a grid (N = grid)."""
import math
import sys

if sys.argv[1] == "grid":
    points = [(x, y, z) for x in range(8) for y in range(8) for z in range(8)]
else:
    n = int(sys.argv[1])
    turn = math.pi * (3 - math.sqrt(5))
    points = []
    for k in range(n):
        y = 1 - 2 * (k + 0.5) / n
        r = math.sqrt(1 - y * y)
        points.append(tuple(round(4000 * c) for c in (r * math.cos(turn * k), y, r * math.sin(turn * k))))
for p in points:
    print(*p)
