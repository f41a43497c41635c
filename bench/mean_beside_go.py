#!/usr/bin/env python3
"""Runs random programs by `mean` and by `go`, and says where they do not do the same.

  mean_beside_go.py TP FIRST COUNT    the programs of random_programs.py, of so many seeds from one on, by the program TP

Each is run by `go` as it is, with the smallest buffer that holds its largest overlay if it has overlays, and with --retry 40960. Output,
errors and status are to be those of `mean`. Where `mean` comes to its last turn, one output is to begin with the other; where it comes to
an undefined act, that of `go` is to begin with that of `mean`. Where `go` comes to its last instruction, its output is to be a beginning.
Ends with 1 if a program differs."""
import collections
import concurrent.futures
import os
import pathlib
import re
import subprocess
import sys
import tempfile

WRITER = pathlib.Path(__file__).resolve().parent / "random_programs.py"
TURNS, INSTRUCTIONS, SECONDS = "300000", "400000000", 600
UNDEFINED, TURN_LIMIT, INSTRUCTION_LIMIT = 249, 250, 251


def run(words, folder, given):
    return subprocess.run(words, cwd=folder, input=given, capture_output=True, timeout=SECONDS)


def smallest_buffer(tp, name, folder, given):
    """Returns the options for the smallest buffer, or None where the program has no overlays."""
    need = re.search(rb"BufferTooSmall (\d+)", run([tp, "go", name, "--buffer", "1"], folder, given).stderr)
    return need and ["--buffer", need.group(1).decode()]


def compared(mean, go):
    if mean.returncode == TURN_LIMIT:
        same = mean.stdout.startswith(go.stdout) or go.stdout.startswith(mean.stdout)
        return "begins alike" if same else "DIFFERS"
    if mean.returncode == UNDEFINED:
        return "begins alike" if go.stdout.startswith(mean.stdout) else "DIFFERS"
    if go.returncode == INSTRUCTION_LIMIT:
        return "begins alike" if mean.stdout.startswith(go.stdout) else "DIFFERS"
    return "same" if (mean.stdout, mean.stderr, mean.returncode) == (go.stdout, go.stderr, go.returncode) else "DIFFERS"


def tried(tp, seed):
    with tempfile.TemporaryDirectory() as folder:
        subprocess.run([sys.executable, str(WRITER), str(seed), folder], check=True)
        name = f"r{seed}"
        given = pathlib.Path(folder, f"{name}.in").read_bytes()
        mean = run([tp, "mean", name, "--turns", TURNS], folder, given)
        ways = [[], smallest_buffer(tp, name, folder, given), ["--retry", "40960"]]
        return [compared(mean, run([tp, "go", name, "--limit", INSTRUCTIONS, *way], folder, given)) for way in ways if way is not None]


def main(tp, first, count):
    tp = os.path.abspath(tp)
    found = collections.Counter()
    with concurrent.futures.ThreadPoolExecutor(os.cpu_count()) as workers:
        seeds = range(first, first + count)
        for seed, answers in zip(seeds, workers.map(lambda seed: tried(tp, seed), seeds)):
            found.update(answers)
            if "DIFFERS" in answers:
                print(f"seed {seed}: {', '.join(answers)}", flush=True)
    print(f"{sum(found.values())} runs of {count} programs: " + ", ".join(f"{number} {answer}" for answer, number in sorted(found.items())))
    return 1 if found["DIFFERS"] else 0


if __name__ == "__main__":
    sys.exit(main(sys.argv[1], int(sys.argv[2]), int(sys.argv[3])))
