"""Retries within one try, with Airflow's growing delays."""

from __future__ import annotations

import hashlib
import math
import os
import signal
import sys
import time

TYPE_CHECKING = False
if TYPE_CHECKING:
    from typing import Any, Callable, List, Optional

# In seconds; Airflow's MAX_RETRY_DELAY.
MOST_SECONDS = 86_400
# The status of a try that isn't to be made again, told by the process of a try to the one that makes the retries.
NO_FURTHER = 98


class Backoff:
    """So many retries, after a delay in seconds that doubles with each, up to a most (None where there is none)."""

    def __init__(self, retries: int, delay: float, most: Optional[float]) -> None:
        self.retries, self.delay, self.most = retries, delay, most

    @classmethod
    def of_task(cls, task: Any) -> Backoff:
        most = task.given_arguments.get("max_retry_delay")
        seconds = most.total_seconds() if hasattr(most, "total_seconds") else most
        return cls(task.retries, task.retry_delay.total_seconds(), seconds)

    @classmethod
    def of_words(cls, words: List[str]) -> Backoff:
        """Raises a ValueError for other words than `words` makes."""
        retries, delay, most = words
        return cls(int(retries), float(delay), None if most == "-" else float(most))

    def words(self) -> List[str]:
        """The words that tell it to a try."""
        return [str(self.retries), f"{self.delay:g}", "-" if self.most is None else f"{self.most:g}"]

    def seconds_after(self, number: int, instance: str) -> float:
        """How long to wait after a try of this number, from 1 on: between once and twice the doubled delay, as a hash of the instance says."""
        least = max(1, math.ceil(self.delay * 2.0 ** (number - 1)))
        digest = hashlib.sha1(f"{instance}#{number}".encode()).hexdigest()
        seconds = min(least + int(digest, 16) % least, MOST_SECONDS)
        return seconds if self.most is None else min(seconds, self.most)


def run_tries(backoff: Backoff, instance: str, attempt: Callable[[int], int]) -> int:
    """Makes tries, each in a process of its own, until one is a success or skipped, or none is left. Returns the status of the last.

    `instance` is `DAG#TASK#DATE`, by which Airflow spreads the delays; `attempt` makes the try of a number and returns its status."""
    number = 1
    while True:
        child = os.fork()
        if not child:
            os._exit(_attempt(attempt, number))
        status = _wait(child)
        if status != 1 or number > backoff.retries:
            return 1 if status == NO_FURTHER else status
        seconds = backoff.seconds_after(number, instance)
        from .logs import log_line

        log_line("backoff.py", 0, "INFO", f"try {number} failed; the next of {backoff.retries + 1} begins in {seconds:g} seconds")
        time.sleep(seconds)
        number += 1


def _attempt(attempt: Callable[[int], int], number: int) -> int:
    try:
        return attempt(number)
    except BaseException as error:
        from .tracebacks import print_error

        print_error(error)
        return 1
    finally:
        sys.stdout.flush()
        sys.stderr.flush()


def _wait(child: int) -> int:
    """Waits for a child, which gets the signals that end this process. Returns its status, 1 where a signal ended it."""

    def forward(number: int, frame: Any) -> None:
        try:
            os.kill(child, number)
        except ProcessLookupError:
            pass
        stopped.append(number)

    stopped: List[int] = []
    ends = (signal.SIGTERM, signal.SIGINT, signal.SIGHUP)
    before = [signal.signal(each, forward) for each in ends]
    _, status = os.waitpid(child, 0)
    for each, handler in zip(ends, before):
        signal.signal(each, handler)
    if stopped:
        return NO_FURTHER
    return os.WEXITSTATUS(status) if os.WIFEXITED(status) else 1
