#!/usr/bin/env python3
"""Makes graphs of hostile DAG files: hostile.py PYTHON [NAME..]

The first lines of hostile/NAME.py say what is to come of it: `# graph OPTIONS`, `# status N`, and `# says WORDS` for what stands in standard error. Where
the status is 0, standard output has to be a graph and nothing else, and where it is 2, nothing. No process may be left, and none may take more than
20 seconds. The last line has how many rows were right, and how many wrong.
"""
from __future__ import annotations

import concurrent.futures
import json
import pathlib
import subprocess
import sys
from typing import Dict, List, Tuple

HERE = pathlib.Path(__file__).resolve().parent


def wanted(path: pathlib.Path) -> Dict[str, List[str]]:
    found: Dict[str, List[str]] = {"graph": [], "status": ["0"], "says": []}
    for line in path.read_text(encoding="utf-8").splitlines():
        if not line.startswith("# ") or line[2:].split(" ")[0] not in found:
            break
        key, _, rest = line[2:].partition(" ")
        found[key] = [rest] if key == "status" else [*found[key], rest]
    return found


def is_graph(text: str) -> bool:
    try:
        return isinstance(json.loads(text)["tasks"], list)
    except (ValueError, KeyError, TypeError):
        return False


def tried(python: str, name: str) -> Tuple[int, List[str]]:
    """How many rows are right, and what is wrong."""
    says = wanted(HERE / "hostile" / f"{name}.py")
    options = [word for line in says["graph"] for word in line.split()]
    process = subprocess.Popen(
        [python, "-m", "backfill_airflow", "graph", f"hostile/{name}.py", *options],
        cwd=HERE, stdin=subprocess.DEVNULL, stdout=subprocess.PIPE, stderr=subprocess.PIPE, text=True, start_new_session=True,
    )
    try:
        out, err = process.communicate(timeout=20)
    except subprocess.TimeoutExpired:
        subprocess.run(["kill", "-9", f"-{process.pid}"])
        out, err = process.communicate()
        return 0, [f"{name}: it hangs:\n{err}"]
    left = subprocess.run(["ps", "-o", "args=", "--sid", str(process.pid)], capture_output=True, text=True).stdout
    rows = {
        f"status {process.returncode}:\n{err}": process.returncode == int(says["status"][0]),
        f"standard output has {out[:200]!r}": is_graph(out) if says["status"] == ["0"] else out == "",
        f"it leaves {left!r}": left == "",
        **{f"it doesn't say {words!r}:\n{err}": words in err for words in says["says"]},
    }
    return sum(rows.values()), [f"{name}: {words}" for words, holds in rows.items() if not holds]


def main(python: str, *given: str) -> None:
    names = list(given) or sorted(path.stem for path in (HERE / "hostile").glob("*.py"))
    with concurrent.futures.ThreadPoolExecutor(2) as pool:
        found = list(pool.map(lambda name: tried(python, name), names))
    for _, wrong in found:
        for words in wrong:
            print(f"differs: {words}")
    print(sum(right for right, _ in found), sum(len(wrong) for _, wrong in found))


if __name__ == "__main__":
    main(*sys.argv[1:])
