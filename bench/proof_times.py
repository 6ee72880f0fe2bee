#!/usr/bin/env python3
"""Tells how many seconds of a processor each crate takes of an `rt ci` or a ./prove that runs beside it: its proof as a library or a
program, that of its tests, and the checks of its wrong bodies. Start it first. It ends when no rt has run for ten seconds, and prints a
line a crate, the dearest first, and the sums."""
import collections
import os
import re
import time

TICKS = os.sysconf("SC_CLK_TCK")
PAUSE = 0.5  # seconds between two looks
KINDS = ("proof", "tests", "wrong bodies")


def words_of(process):
    with open(f"/proc/{process}/cmdline", encoding="utf-8", errors="replace") as it:
        return it.read().split("\0")


def seconds_of(process):
    """What a process and those that it has waited for have taken so far, and when it began."""
    with open(f"/proc/{process}/stat", encoding="utf-8", errors="replace") as it:
        fields = it.read().rpartition(")")[2].split()
    return sum(map(int, fields[11:13])) / TICKS, fields[19]


def kind_of(words):
    if "--test" in words:
        return "tests"
    # A program is checked, and then built of what was checked; a library is built; what else is checked has a wrong body.
    return "proof" if "build" in words or "src/main.rt" in words else "wrong bodies"


def look(taken):
    """Notes what each prover has taken so far. Says whether an rt runs."""
    runs = False
    for process in filter(str.isdigit, os.listdir("/proc")):
        try:
            words = words_of(process)
            runs = runs or any(re.fullmatch(r"(.*/)?rt", word) for word in words[:3])
            if "--crate-name" in words:
                crate = words[words.index("--crate-name") + 1]
                seconds, began = seconds_of(process)
                taken[crate, kind_of(words), process, began] = seconds
        except (OSError, ValueError, IndexError):
            continue
    return runs


def table_of(taken):
    table = collections.defaultdict(lambda: dict.fromkeys(KINDS, 0.0))
    for (crate, kind, _, _), seconds in taken.items():
        table[crate][kind] += seconds
    return sorted(table.items(), key=lambda row: -sum(row[1].values()))


def main():
    taken, idle = {}, 0.0
    while idle < 10:
        idle = 0.0 if look(taken) else idle + PAUSE
        time.sleep(PAUSE)
    rows = table_of(taken)
    print(f"{'crate':<20}{''.join(f'{kind:>14}' for kind in KINDS)}")
    for crate, row in rows:
        print(f"{crate:<20}{''.join(f'{row[kind]:>14.0f}' for kind in KINDS)}")
    print(f"{'all':<20}{''.join(f'{sum(row[kind] for _, row in rows):>14.0f}' for kind in KINDS)}")


main()
