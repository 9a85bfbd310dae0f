#!/usr/bin/env python3
"""Runs a command (by default the whole gate, `rt ci`) from the top of the repository, and prints the processor
minutes that each crate took: its proof, its tests (the crate proved once more with them) and its edits. Twice a
second it reads the processor times of the checks that the command started, so a check of less than half a second
may be missed; the total below the table is that of the whole command and of all that it started, and misses nothing.

    python3 docs/measure/gate.py [COMMAND ..]
"""
import os, resource, subprocess, sys, time

TICK = os.sysconf("SC_CLK_TCK")
spent = {}      # process -> (crate, what, seconds)


def words_of(pid):
    with open(f"/proc/{pid}/cmdline", "rb") as file:
        return file.read().decode(errors="replace").split("\0")


def parent_of(pid):
    with open(f"/proc/{pid}/stat") as file:
        return int(file.read().rsplit(")", 1)[1].split()[1])


def is_below(pid, top):
    pid = int(pid)
    while pid > 1 and pid != top:
        pid = parent_of(pid)
    return pid == top


def look(pid, top):
    words = words_of(pid)
    if "--crate-name" not in words or not is_below(pid, top):
        return
    crate = words[words.index("--crate-name") + 1]
    folder = os.readlink(f"/proc/{pid}/cwd")
    what = "edits" if "rt-edit" in folder else "tests" if "--test" in words else "proof"
    with open(f"/proc/{pid}/stat") as file:
        fields = file.read().rsplit(")", 1)[1].split()
    began, seconds = fields[19], (int(fields[11]) + int(fields[12])) / TICK
    spent[(pid, began)] = (crate, what, seconds)


def main():
    command = sys.argv[1:] or ["rt", "ci"]
    start = time.time()
    run = subprocess.Popen(command)
    while run.poll() is None:
        for pid in filter(str.isdigit, os.listdir("/proc")):
            try:
                look(pid, run.pid)
            except (OSError, ValueError, IndexError):
                pass
        time.sleep(0.5)
    table = {}
    for crate, what, seconds in spent.values():
        table.setdefault(crate, {}).setdefault(what, 0)
        table[crate][what] += seconds
    print("\n| Crate | Proof | Tests | Edits |\n|---|---|---|---|")
    for crate, row in sorted(table.items(), key=lambda entry: -sum(entry[1].values())):
        cells = [f"{row[what] / 60:.1f}" if what in row else "-" for what in ("proof", "tests", "edits")]
        print(f"| `{crate}` | " + " | ".join(cells) + " |")
    used = resource.getrusage(resource.RUSAGE_CHILDREN)
    print(f"\n{(used.ru_utime + used.ru_stime) / 60:.1f} processor minutes, {(time.time() - start) / 60:.1f} by the clock")
    sys.exit(run.returncode)


main()
