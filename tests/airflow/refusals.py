#!/usr/bin/env python3
"""Refuses DAG files, in words: refusals.py WORK [NAME..]

In refused/NAME.py, a comment `# refused: WHAT | INSTEAD` stands in each line that is refused; a line may have several. What is refused without a line
of its own is a line `# refused, FILE: WHAT | INSTEAD`. $HERE is the folder of this file.

The first lines may say with which options: `# graph OPTIONS`; of several such lines each is a call, and a comment `# refused 2: ..` belongs to the
second alone. A file with a line `# needs MODULE` is left out without that module.

Standard error has to be just these refusals, in whatever order, and the line that counts them; the status is 2, and standard output empty. The last line
has how many rows were right, and how many wrong.
"""
from __future__ import annotations

import importlib.util
import pathlib
import re
import shlex
import sys
from typing import List, Tuple

import forking

HERE = pathlib.Path(__file__).resolve().parent
MARK = re.compile(r"# refused(?P<file>, FILE)?(?: (?P<call>\d+))?: (?P<what>.*?) \| (?P<instead>.*?)\s*(?=$|# refused)")


def expected(name: str) -> List[Tuple[List[str], List[str]]]:
    """Of each call its options, and the refusals."""
    path = f"refused/{name}.py"
    lines = (HERE / path).read_text(encoding="utf-8").splitlines()
    calls = [shlex.split(line[len("# graph ") :]) for line in lines if line.startswith("# graph ")] or [[]]
    found: List[List[str]] = [[] for _ in calls]
    for number, line in enumerate(lines, 1):
        for mark in MARK.finditer(line):
            where = path if mark["file"] else f"{path}:{number}"
            words = f"refused: {where}: {mark['what']}\n  instead: {mark['instead']}\n".replace("$HERE", str(HERE))
            for place, one in enumerate(found, 1):
                if mark["call"] in (None, str(place)):
                    one.append(words)
    return list(zip(calls, found))


def tried(work: str, name: str) -> Tuple[int, List[str]]:
    """How many rows are right, and what is wrong."""
    right, wrong = 0, []
    for options, refusals in expected(name):
        status, out, err = forking.call(["graph", f"refused/{name}.py", *options], str(HERE), work)
        *got, rest = re.split(r"(?=^refused: |^\d+ refused; no graph)", err, flags=re.MULTILINE)[1:] or [err]
        rows = {
            f"status {status}, standard output {out[:100]!r}": status == 2 and out == "",
            f"it ends with {rest!r}": rest == f"{len(refusals)} refused; no graph is written\n",
            **{f"it doesn't refuse\n{each}": each in got for each in refusals},
        }
        more = [each for each in got if each not in refusals]
        right += sum(rows.values())
        wrong += [f"{name} {' '.join(options)}: {each}" for each, holds in rows.items() if not holds]
        wrong += [f"{name} {' '.join(options)}: it refuses\n{each}" for each in more]
    return right, wrong


def lacks(name: str) -> List[str]:
    """The modules that a file needs, and this Python lacks."""
    modules = re.findall(r"^# needs (\w+)$", (HERE / "refused" / f"{name}.py").read_text(encoding="utf-8"), re.MULTILINE)
    return [each for each in modules if importlib.util.find_spec(each) is None]


def main(work: str, *given: str) -> None:
    pathlib.Path(work).mkdir(parents=True, exist_ok=True)
    right, wrong = 0, []
    for name in given or sorted(path.stem for path in (HERE / "refused").glob("*.py")):
        modules = lacks(name)
        if modules:
            print(f"skipped: refused/{name}.py, since {sys.executable} has no {', '.join(modules)}")
            continue
        found = tried(work, name)
        right += found[0]
        wrong += found[1]
    for words in wrong:
        print(f"differs: {words}")
    print(right, len(wrong))


if __name__ == "__main__":
    main(*sys.argv[1:])
