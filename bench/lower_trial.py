#!/usr/bin/env python3
"""Makes the cases of lower_trial: a file for each program that a folder of test programs runs by `go` or `mean`.

    lower_trial.py OUT FOLDER..     writes to the folder OUT a case for each folder of test programs in FOLDER..
    (cd crates/lower_trial && rt try --cases OUT)     then tries them
"""

import os
import sys

MARKS = ("expected", "expected_re", "args", "input", "errors", "errors_re", "status", "files", "sources", "note")
TOP = os.path.dirname(os.path.dirname(os.path.abspath(__file__)))


def words_of(folder, name):
    path = f"{folder}/args"
    words = open(path).read().split("\n") if os.path.isfile(path) else []
    while words and not words[-1]:
        words.pop()
    if words and words[0] == "!words":
        return words[1:]
    if not words:
        return ["go", name]
    return words if words[0] in ("go", "mean", "gen", "run", "explain", "-C") or words[0].startswith("-") else ["go", name, *words]


def case_of(folder, name):
    words = words_of(folder, name)
    if len(words) < 2 or words[0] not in ("go", "mean"):
        return None
    turns = words[words.index("--turns") + 1] if "--turns" in words else "1000000"
    parts = {it: open(f"{folder}/{it}", "rb").read() for it in sorted(os.listdir(folder)) if it not in MARKS and os.path.isfile(f"{folder}/{it}")}
    if os.path.isfile(f"{folder}/sources"):
        for it in open(f"{folder}/sources").read().split():
            parts[os.path.basename(it)] = open(f"{TOP}/{it}", "rb").read()
    case = f"program {words[1]} {turns}\n".encode()
    for it, text in parts.items():
        case += f"file {it} {len(text)}\n".encode() + text
    if os.path.isfile(f"{folder}/input"):
        text = open(f"{folder}/input", "rb").read()
        case += f"input {len(text)}\n".encode() + text
    return case


def main(out, folders):
    os.makedirs(out, exist_ok=True)
    for top in folders:
        for name in sorted(os.listdir(top)):
            case = case_of(f"{top}/{name}", name) if os.path.isdir(f"{top}/{name}") else None
            if case is not None:
                with open(f"{out}/{name}", "wb") as it:
                    it.write(case)


if __name__ == "__main__":
    main(sys.argv[1], sys.argv[2:])
