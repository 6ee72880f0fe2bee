"""The words of a try."""

from __future__ import annotations

TYPE_CHECKING = False
if TYPE_CHECKING:
    from typing import Dict, List, Optional, Sequence

HELP = """Makes one try of a task; the commands of the graph file start it

Usage: python3 -m backfill_airflow try [OPTIONS] <DAGFILE> <DAG> <TASK> <LOGICAL_DATE> <INTERVAL_END> <TRY_NUMBER> <MAP_INDEX>

Arguments:
  <DAGFILE>       The DAG file
  <DAG>           The id of the DAG
  <TASK>          The id of the task
  <LOGICAL_DATE>  The start of the data interval, as 2024-01-31T00:00:00Z
  <INTERVAL_END>  Its end
  <TRY_NUMBER>    The number of the try, from 1
  <MAP_INDEX>     The map index; -1 where the task isn't expanded

Options:
      --pull <ID> <VALUE>                          What a task pushed, as a word of backfill; may stand several times
      --part <ID> <VALUE>                          One more of what the instances of a task pushed; may stand several times
      --item <ITEM>                                The item of an expanded task
      --items                                      Pushes the items over which the task is expanded, in place of calling it
      --skip-without                               With --items: skips where a task from which they are taken pushed nothing
      --is-pulled                                  Of a branch: another task pulls what it returns
      --group-index <N>                            The index in a mapped task group that the graph has unrolled
      --backoff-inside <RETRIES> <DELAY> <LONGEST> Makes the retries, too, with growing delays from DELAY seconds to LONGEST (- where there is no such)
      --with <MODULE>                              As for graph
      --dags-folder <FOLDER>                       As for graph
      --external <DAG=PATH>                        As for graph
  -h, --help                                       Print help

Standard output gets the value that the task pushes, and standard error all else. The status is 0 for success, 99 for skipped, else 1. The line `by hand`
of backfill explain starts a try as it was made; on Ctrl-C or SIGTERM the task's on_kill is called.

Examples:
  python3 -m backfill_airflow try dags/sales.py sales total 2024-03-05T00:00:00Z 2024-03-06T00:00:00Z 1 -1 --pull extract sales.csv"""

ARGUMENTS = ("DAGFILE", "DAG", "TASK", "LOGICAL_DATE", "INTERVAL_END", "TRY_NUMBER", "MAP_INDEX")


class WrongWords(Exception):
    """Words that no graph has, in words."""


class TryWords:
    """What a try is started with."""

    def __init__(self, words: Sequence[str]) -> None:
        """Raises WrongWords for other words than a graph has."""
        self.pulls: Dict[str, str] = {}
        self.parts: Dict[str, List[str]] = {}
        self.item: Optional[str] = None
        self.is_for_items = self.skips_without = self.is_pulled = False
        self.group_index: Optional[int] = None
        self.backoff: Optional[List[str]] = None
        self.modules: List[str] = []
        self.folder: Optional[str] = None
        self.external: Dict[str, str] = {}
        if len(words) < len(ARGUMENTS):
            missing = "\n".join(f"  <{name}>" for name in ARGUMENTS[len(words) :])
            raise WrongWords(f"the following required arguments were not provided:\n{missing}")
        self.path, self.dag_id, self.task_id, self.start, self.end = words[:5]
        try:
            self.try_number, self.map_index = int(words[5]), int(words[6])
            self._read_options(list(words[len(ARGUMENTS) :]))
        except ValueError as error:
            raise WrongWords(str(error)) from None
        except IndexError:
            raise WrongWords("a value is required for the last option but none was supplied") from None

    def _read_options(self, rest: List[str]) -> None:
        rest.reverse()
        while rest:
            name = rest.pop()
            if name == "--pull":
                source = rest.pop()
                self.pulls[source] = rest.pop()
            elif name == "--part":
                self.parts.setdefault(rest.pop(), []).append(rest.pop())
            elif name == "--item":
                self.item = rest.pop()
            elif name == "--items":
                self.is_for_items = True
            elif name == "--skip-without":
                self.skips_without = True
            elif name == "--is-pulled":
                self.is_pulled = True
            elif name == "--group-index":
                self.group_index = int(rest.pop())
            elif name == "--backoff-inside":
                self.backoff = [rest.pop(), rest.pop(), rest.pop()]
            elif name == "--with":
                self.modules.append(rest.pop())
            elif name == "--dags-folder":
                self.folder = rest.pop()
            elif name == "--external":
                dag_id, _, path = rest.pop().partition("=")
                self.external[dag_id] = path
            else:
                raise ValueError(f"unexpected argument '{name}' found")
