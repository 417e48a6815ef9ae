"""Prints the median and the worst of counts: lines of a count and a call's name, by a tab."""

import sys

counts = {}
for line in sys.stdin:
    count, _, name = line.rstrip("\n").partition("\t")
    if name:
        counts.setdefault(name, []).append(int(count))
nothing = sorted(counts.pop("nothing"))
beside = nothing[len(nothing) // 2]
print(f"beside each call {beside} to {nothing[-1]} instructions, which are taken off")
print("| Call | States | Median | Worst |")
print("|---|---|---|---|")
for name, own in counts.items():
    own.sort()
    print(f"| {name} | {len(own):,} | {own[len(own) // 2] - beside:,} | {own[-1] - beside:,} |")
