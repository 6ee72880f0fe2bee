"""Executes a DAG file that may do anything: within a time, with what it prints kept off standard output, and with nothing of it left behind."""

from __future__ import annotations

import os
import signal
import sys
import threading
import time
from types import FrameType, TracebackType
from typing import Any, Callable, List, NoReturn, Optional, TypeVar

from .errors import Refused

Made = TypeVar("Made")
# What is waited for a file that goes on after its time is over, in seconds.
GRACE = 2.0
PR_SET_CHILD_SUBREAPER = 36


class _TimeIsOver(BaseException):
    """Ends a DAG file from within, as an error that it isn't likely to catch."""


class Reader:
    """Executes a DAG file. The process that uses one is to end by `leave`."""

    def __init__(self, path: str, seconds: float) -> None:
        self.path, self.seconds = path, seconds
        self._output = -1
        self._process = os.getpid()
        self._watch: Optional[threading.Timer] = None
        _adopt_orphans()

    def read(self, work: Callable[[], Made]) -> Made:
        """What the work makes of the file. Raises Refused, with the line, where the file fails or takes too long."""
        folder, paths, streams = os.getcwd(), list(sys.path), (sys.stdin, sys.stdout, sys.stderr)
        # Whatever is written to standard output meanwhile goes to standard error, also by programs that the file starts.
        sys.stdout.flush()
        self._output = os.dup(1)
        os.set_inheritable(self._output, False)
        os.dup2(2, 1)
        previous = signal.signal(signal.SIGALRM, self._on_alarm)
        signal.setitimer(signal.ITIMER_REAL, self.seconds)
        try:
            return work()
        except Refused:
            raise
        except BaseException as error:
            raise self._refusal_of(error) from None
        finally:
            signal.setitimer(signal.ITIMER_REAL, 0)
            signal.signal(signal.SIGALRM, previous)
            if self._watch is not None:
                self._watch.cancel()
            # A child that the file made by os.fork() isn't to go on in this one's place.
            if os.getpid() != self._process:
                os._exit(0)
            os.chdir(folder)
            sys.path[:] = [*paths, *(each for each in sys.path if each not in paths)]
            sys.stdin, sys.stdout, sys.stderr = streams

    def _on_alarm(self, number: int, frame: Optional[FrameType]) -> NoReturn:
        self._watch = threading.Timer(GRACE, self._end_at_once)
        self._watch.daemon = True
        self._watch.start()
        raise _TimeIsOver

    def _end_at_once(self) -> None:
        """Ends the process where the file doesn't let its time be over."""
        print(f"{self._refusal_of(_TimeIsOver())}\n1 refused; no graph is written", file=sys.stderr, flush=True)
        self.leave(2)

    def _refusal_of(self, error: BaseException) -> Refused:
        if isinstance(error, _TimeIsOver):
            what = f"the DAG file takes more than {self.seconds:g} seconds to be read"
            return Refused(what, "work in tasks and not at the top of the file; or --import-timeout SECONDS", where=self._where(error))
        if isinstance(error, SystemExit):
            return Refused(f"the DAG file ends Python by sys.exit({error.code!r})", "leave that away", where=self._where(error))
        if isinstance(error, SyntaxError) and error.filename == self.path:
            what = f"the DAG file isn't Python that this one reads: {error.msg}"
            return Refused(what, "mend it; or start this by another Python", where=f"{self.path}:{error.lineno}")
        words = f": {error}" if str(error) else ""
        return Refused(f"the DAG file fails: {type(error).__name__}{words}", "mend it, or give it what it lacks", where=self._where(error))

    def _where(self, error: BaseException) -> str:
        """The last line of the file that the error went through."""
        found, trace = self.path, error.__traceback__
        while isinstance(trace, TracebackType):
            if trace.tb_frame.f_code.co_filename == self.path:
                found = f"{self.path}:{trace.tb_lineno}"
            trace = trace.tb_next
        return found

    def write(self, text: str) -> None:
        """Writes to what standard output was before the file ran."""
        data = text.encode("utf-8")
        while data:
            data = data[os.write(self._output if self._output >= 0 else 1, data) :]

    def leave(self, status: int) -> NoReturn:
        """Ends the process, with the threads and programs that the file started."""
        for stream in (sys.stdout, sys.stderr):
            try:
                stream.flush()
            except (OSError, ValueError):
                pass
        end_programs()
        os._exit(status)


def _adopt_orphans() -> None:
    """Makes programs that lose their parent children of this process, so that they are found in the end (Linux)."""
    try:
        import ctypes

        ctypes.CDLL(None).prctl(PR_SET_CHILD_SUBREAPER, 1, 0, 0, 0)
    except (ImportError, OSError, AttributeError):
        pass


def end_programs() -> None:
    """Kills the programs below this process, until there are none (Linux)."""
    for _ in range(100):
        children = _children()
        if not children:
            return
        for child in children:
            try:
                os.kill(child, signal.SIGKILL)
                os.waitpid(child, os.WNOHANG)
            except (ProcessLookupError, ChildProcessError, PermissionError):
                pass
        time.sleep(0.01)


def _children() -> List[int]:
    """The children of this process that haven't ended."""
    made: List[Any] = []
    for thread in _threads():
        try:
            with open(f"/proc/{os.getpid()}/task/{thread}/children", encoding="ascii") as file:
                made += map(int, file.read().split())
        except OSError:
            pass
    return made


def _threads() -> List[str]:
    """The threads of this process, by the system's ids."""
    try:
        return os.listdir(f"/proc/{os.getpid()}/task")
    except OSError:
        return []
