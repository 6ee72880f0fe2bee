#!/usr/bin/env python3
"""Compares the tables of docs/FROM_AIRFLOW.md with those of the package, row by row, and the kinds of values in docs/FORMATS.md with those that the package
and these tests know: tables.py [--write]

With --write it puts the package's rows into FROM_AIRFLOW first. The last line has how many rows were right, and how many wrong.
"""
from __future__ import annotations

import pathlib
import re
import sys
from typing import List, Set

import reading
from backfill_airflow import coverage, tagged

DOCS = pathlib.Path(__file__).resolve().parents[2] / "docs"
PAGE = DOCS / "FROM_AIRFLOW.md"
TABLES = {"Taken as it is": coverage.SUPPORTED, "Noted": coverage.NOTED, "Refused": coverage.REFUSED}


def row_of(what: str, how: str) -> str:
    return f"| {what} | {how} |"


def rows_below(text: str, heading: str) -> List[str]:
    """The rows of the first table below a heading, without its head."""
    lines = text.partition(f"\n### {heading}\n")[2].partition("\n#")[0].splitlines()
    return [line for line in lines if line.startswith("|")][2:]


def kinds_in(text: str) -> Set[str]:
    """The kinds of values in the first column of a table."""
    cells = re.findall(r"^\| ((?:`[a-z]+`(?:, )?)+) \| [^|]* \| [^|]* \|$", text, re.MULTILINE)
    return {kind for cell in cells for kind in re.findall(r"`([a-z]+)`", cell)}


def write() -> None:
    """Puts the rows of the package into the page."""
    text = PAGE.read_text(encoding="utf-8")
    for heading, table in TABLES.items():
        text = text.replace("\n".join(rows_below(text, heading)), "\n".join(row_of(*row) for row in table))
    PAGE.write_text(text, encoding="utf-8")


def main(*options: str) -> None:
    if options == ("--write",):
        write()
    text = PAGE.read_text(encoding="utf-8")
    right, wrong = 0, []
    for heading, table in TABLES.items():
        wanted = [row_of(*row) for row in table]
        got = rows_below(text, heading)
        right += sum(row in got for row in wanted)
        wrong += [f"{heading}: the page lacks {row}" for row in wanted if row not in got]
        wrong += [f"{heading}: the package lacks {row}" for row in got if row not in wanted]
    section = (DOCS / "FORMATS.md").read_text(encoding="utf-8").partition("\n## Values of a DAG file\n")[2].partition("\n## ")[0]
    for what, kinds in {"the package": kinds_in(tagged.__doc__ or ""), "these tests": set(reading.KINDS)}.items():
        right += kinds == kinds_in(section)
        wrong += [f"kinds of values in FORMATS and in {what}: {sorted(kinds ^ kinds_in(section))}"] if kinds != kinds_in(section) else []
    print("\n".join([*(f"differs: {words}" for words in wrong), f"{right} {len(wrong)}"]))


if __name__ == "__main__":
    main(*sys.argv[1:])
