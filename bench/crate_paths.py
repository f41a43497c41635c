#!/usr/bin/env python3
"""Prints how many paths of dependencies crates.txt has, and fails where there are more than 60,000: rt walks them all at each start.

A crate has the path that ends in itself and those of each crate of this repository that its line names: these are what rt walks."""
import functools
import pathlib
import sys

MOST = 60_000

uses = {}
for line in (pathlib.Path(__file__).resolve().parent.parent / "crates.txt").read_text().splitlines():
    head, _, names = line.partition("#")[0].partition(":")
    if head.strip():
        uses[head.split()[0]] = names.replace(",", " ").split()


@functools.lru_cache(maxsize=None)
def paths(name):
    return 1 + sum(paths(it) for it in uses[name] if it in uses)


total = sum(map(paths, uses))
print(f"{total:,} paths of dependencies from {len(uses)} crates; at most {MOST:,} are wanted")
sys.exit(total > MOST)
