"""Tracebacks of user code: from the user's file on, without the frames of this package."""

from __future__ import annotations

import os
import sys

TYPE_CHECKING = False
if TYPE_CHECKING:
    import traceback
    from typing import List

JINJA = f"{os.sep}jinja2{os.sep}"
# What Jinja calls the file of a template that is a text.
TEMPLATE = "<template>"
OWN_FOLDER = os.path.dirname(os.path.abspath(__file__)) + os.sep


def print_error(error: BaseException) -> None:
    """Prints an error to standard error, with the lines of user code through which it went."""
    from .errors import Refused

    if isinstance(error, Refused):
        print(error, file=sys.stderr)
        return
    import traceback

    told = traceback.TracebackException(type(error), error, error.__traceback__)
    print("".join(_lines(told)), end="", file=sys.stderr, flush=True)


def _lines(told: traceback.TracebackException) -> List[str]:
    """The lines of an error, behind those of the error that it came of."""
    lines: List[str] = []
    if told.__cause__ is not None:
        lines += [*_lines(told.__cause__), "\nThe above exception was the direct cause of the following exception:\n\n"]
    elif told.__context__ is not None and not told.__suppress_context__:
        lines += [*_lines(told.__context__), "\nDuring handling of the above exception, another exception occurred:\n\n"]
    frames = _of_user(told.stack)
    if frames:
        lines += ["Traceback (most recent call last):\n", *type(told.stack).from_list(frames).format()]
    return [*lines, *told.format_exception_only()]


def _of_user(stack: traceback.StackSummary) -> List[traceback.FrameSummary]:
    """The frames from the first of the user's on, without those of this package. Where there are none, the line of a template."""
    frames = [frame for frame in stack if not os.path.abspath(frame.filename).startswith(OWN_FOLDER)]
    of_others = [JINJA in frame.filename or frame.filename == TEMPLATE or frame.filename.startswith("<frozen ") for frame in frames]
    if False in of_others:
        return frames[of_others.index(False) :]
    return [frame for frame in frames if frame.filename == TEMPLATE]
