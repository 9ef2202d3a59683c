#!/usr/bin/env python3
"""Prints a script for `xns sim`, the same each time: so many calls Add, and what delivers each call and its answer.

    script.py CALLS           nothing is lost, and nothing comes again
    script.py CALLS REPEATS   after each answer so many packets that were sent before come again, and each end ticks
"""
import random, sys

calls = int(sys.argv[1])
repeats = int(sys.argv[2]) if len(sys.argv) > 2 else 0
random.seed(1)
lines = ["call add 5"] * calls + ["tick a", "rest", "rest"]
for call in range(calls):
    lines += ["rest", "rest"]
    lines += [f"deliver {random.randrange(4 * call + 4)}" for _ in range(repeats)]
    if repeats:
        lines += ["tick a", "tick b"]
print("\n".join(lines))
