"""Runs unmodified Airflow 2 DAG files by `backfill`. `python3 -m backfill_airflow --help` tells how."""

from __future__ import annotations

import sys

TYPE_CHECKING = False
if TYPE_CHECKING:
    from typing import List

USAGE = "Usage: python3 -m backfill_airflow <COMMAND>"
HELP = f"""Runs unmodified Airflow 2 DAG files by backfill, without Airflow

{USAGE}

Commands:
  graph    Writes the graph file of a DAG file, or tells all that can't be carried over
  try      Makes one try of a task; the commands of the graph file start it
  compare  Tells where the graph and Airflow's own reading of a DAG file differ, where Airflow is installed
  help     Print this message or the help of the given command

Options:
  -h, --help     Print help
  -V, --version  Print version"""


def main(words: List[str]) -> int:
    """Runs a line. Returns the status."""
    command = words[0] if words else ""
    if command == "help" and words[1:]:
        return main([words[1], "--help"])
    if command == "try":
        from .tryrun import main as run_try

        return run_try(words[1:])
    if command == "graph":
        from .graph_command import main as run_graph

        return run_graph(words[1:])
    if command == "compare":
        from .compare import main as run_compare

        return run_compare(words[1:])
    return _tell(command)


def _tell(command: str) -> int:
    if command in ("--help", "-h", "help"):
        print(HELP)
        return 0
    if command in ("--version", "-V"):
        from . import __version__

        print(f"backfill_airflow {__version__}")
        return 0
    words = f"error: unrecognized subcommand '{command}'\n\n{USAGE}\n\nFor more information, try '--help'." if command else HELP
    print(words, file=sys.stderr)
    return 2


if __name__ == "__main__":
    sys.exit(main(sys.argv[1:]))
