#!/usr/bin/env python3
"""What the gate costs, by crate: processor seconds of its proof, its tests' proof and its must-fail edits, and the bytes that rt keeps of it.

  gate_costs.py COMMAND..   runs the command, such as `rt ci`, and notes what each check below it takes; ends with its status
  gate_costs.py --pid PID   the same for a command that is running, until it ends
  gate_costs.py             prints the thirty dearest crates and the totals of all
  gate_costs.py --write     writes this into bench/README.md, with the day

What is noted stands in bench/out/gate_costs.json. A crate that rt takes from an earlier run keeps its numbers of before: `rt ci --anew` gives
all of them new. rt tells no times, so its processes are looked at once a second; the last part of a second of each is missed."""
import datetime
import importlib.machinery
import importlib.util
import json
import os
import pathlib
import re
import subprocess
import sys
import time

NOTED = pathlib.Path(__file__).resolve().parent / "out/gate_costs.json"
CRATES = NOTED.parent.parent.parent / "crates.txt"
README = NOTED.parent.parent / "README.md"
KINDS = ("proof", "tests", "edits")
ROWS = 30
TICK = os.sysconf("SC_CLK_TCK")


def read(path):
    try:
        with open(path, "rb") as it:
            return it.read().decode(errors="replace")
    except OSError:
        return ""


def processes():
    """Returns each process's parent, start, and processor seconds of its own."""
    found = {}
    for pid in filter(str.isdigit, os.listdir("/proc")):
        # (the command's name may hold blanks and parentheses)
        said = read(f"/proc/{pid}/stat").rpartition(")")[2].split()
        if said:
            found[int(pid)] = int(said[1]), said[19], (int(said[11]) + int(said[12])) / TICK
    return found


def check_of(pid):
    """Returns the crate that a process checks, and for what, or None."""
    words = read(f"/proc/{pid}/cmdline").split("\0")
    if "--crate-name" not in words:
        return None
    try:
        folder = os.readlink(f"/proc/{pid}/cwd")
    except OSError:
        folder = ""
    kind = "tests" if "--test" in words else "edits" if "/rt-edit" in folder else "proof"
    return words[words.index("--crate-name") + 1], kind


def watch(top, is_running):
    """Notes what the processes below the process top take until it ends. What a check starts, such as LLVM, counts to it."""
    checks, spent = {}, {}
    told = json.loads(read(NOTED) or "{}")
    last = time.monotonic()
    while is_running():
        time.sleep(1)
        now = processes()
        for pid, (_, start, seconds) in now.items():
            above, chain = pid, []
            while above in now and above != top and above not in chain:
                chain.append(above)
                above = now[above][0]
            if above != top:
                continue
            for it in chain:
                key = it, now[it][1]
                checks[key] = checks.get(key) or check_of(it)
                if checks[key]:
                    spent[pid, start] = checks[key], seconds
                    break
        if time.monotonic() - last > 60 or not is_running():
            last = time.monotonic()
            note(told, spent)
    note(told, spent)


def note(told, spent):
    new = {}
    for (crate, kind), seconds in spent.values():
        of = new.setdefault(crate, {})
        of[kind] = round(of.get(kind, 0) + seconds, 2)
    whole = {crate: {**told.get(crate, {}), **new.get(crate, {})} for crate in {*told, *new}}
    NOTED.parent.mkdir(exist_ok=True)
    part = NOTED.with_suffix(".part")
    part.write_text(json.dumps(whole, indent=1, sort_keys=True))
    os.replace(part, NOTED)


def store():
    """Returns the folder of what rt keeps, as rt itself names it."""
    kit = os.path.dirname(subprocess.run(["rt", "doc"], capture_output=True, text=True, check=True).stdout.strip())
    sys.dont_write_bytecode = True
    loader = importlib.machinery.SourceFileLoader("rt", f"{kit}/bin/rt")
    rt = importlib.util.module_from_spec(importlib.util.spec_from_loader("rt", loader))
    loader.exec_module(rt)
    return rt.STORE


def kept_bytes(folder):
    """Returns the bytes of the newest entries of each crate in the store, and those of all that it holds."""
    newest, whole = {}, 0
    for entry in os.scandir(folder) if os.path.isdir(folder) else ():
        found = re.fullmatch(r"(proof|tests)-(\w+)-[0-9a-f]{64}", entry.name)
        if found:
            much = sum(it.stat().st_size for it in os.scandir(entry))
            whole += much
            key = found[2], found[1]
            newest[key] = max(newest.get(key, (0, 0)), (entry.stat().st_mtime, much))
    kept = {}
    for (crate, _), (_, much) in newest.items():
        kept[crate] = kept.get(crate, 0) + much
    return kept, whole


def minutes_on(lanes, told):
    """Returns the minutes that all checks take on so many processors, each on one of its own and those first that most waits for, as rt starts them."""
    below = {name: [it for it in deps.split() if it != name] for name, deps in re.findall(r"(?m)^(\w+):(.*)", CRATES.read_text())}
    tasks = {}
    for name in below:
        of = told.get(name, {})
        tasks[name, "proof"] = of.get("proof", 0), [(it, "proof") for it in below[name] if it in below]
        for kind in KINDS[1:]:
            if of.get(kind):
                tasks[name, kind] = of[kind], [(name, "proof")]
    behind = {}
    for key in reversed(tasks):
        behind[key] = tasks[key][0] + max((behind[it] for it in behind if key in tasks[it][1]), default=0)
    # (edits fill what proofs leave free)
    left = sorted(tasks, key=lambda it: (it[1] == "edits", -behind[it]))
    now, done, running = 0, set(), []
    while left or running:
        for key in [it for it in left if done.issuperset(tasks[it][1])][: lanes - len(running)]:
            left.remove(key)
            running.append((now + tasks[key][0], key))
        running.sort()
        now, key = running.pop(0)
        done.add(key)
    return now / 60


def table():
    """Returns the lines of the table."""
    names = re.findall(r"(?m)^(\w+)", CRATES.read_text())
    told, (kept, whole) = json.loads(read(NOTED) or "{}"), kept_bytes(store())
    rows = [(it, [told.get(it, {}).get(kind, 0) for kind in KINDS], kept.get(it, 0)) for it in names]
    rows.sort(key=lambda it: (-sum(it[1]), -it[2], it[0]))
    line = "| {:<28} |" + " {:>9} |" * 4 + " {:>8} |"
    all_of = f"all {len(rows)} crates", [sum(it[1][at] for it in rows) for at in range(len(KINDS))], sum(it[2] for it in rows)
    lines = [line.format("crate", *KINDS, "seconds", "kept MB"), "|---|--:|--:|--:|--:|--:|"]
    for name, seconds, much in [*rows[:ROWS], all_of]:
        lines.append(line.format(name, *(f"{it:,.0f}" for it in [*seconds, sum(seconds)]), f"{much / 1e6:,.1f}"))
    timed, held = sum(any(it[1]) for it in rows), sum(it[2] > 0 for it in rows)
    clock = "; ".join(f"on {it} processors {minutes_on(it, told):,.0f} minutes" for it in (2, 4))
    return [
        *lines,
        "",
        f"{timed} crates have seconds, {held} are kept; the store holds {whole / 1e6:,.1f} MB. From nothing, at these seconds and with nothing beside: {clock}.",
    ]


def write():
    """Puts the table between its two lines in README.md."""
    start, end = "<!-- written by gate_costs.py --write -->", "<!-- end -->"
    before, _, rest = README.read_text().partition(start)
    after = rest.partition(end)[2]
    day = datetime.date.today().isoformat()
    README.write_text("\n".join([before + start, f"On {day}:", "", *table(), end + after]))


def main(words):
    if not words:
        print(*table(), sep="\n")
        return 0
    if words == ["--write"]:
        write()
        return 0
    if words[0] == "--pid":
        watch(int(words[1]), lambda: os.path.exists(f"/proc/{words[1]}"))
        return 0
    ran = subprocess.Popen(words)
    watch(ran.pid, lambda: ran.poll() is None)
    return ran.returncode if ran.returncode >= 0 else 128 - ran.returncode


sys.exit(main(sys.argv[1:]))
