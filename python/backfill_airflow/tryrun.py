"""One try: executes the DAG file, calls the task, and prints what it pushes in one line."""

from __future__ import annotations

import os
import signal
import sys

from . import errors
from .reading import Reading
from .try_words import HELP, TryWords, WrongWords

TYPE_CHECKING = False
if TYPE_CHECKING:
    from typing import Any, Dict, NoReturn, Optional, Sequence

SUCCESS, FAILED, SKIPPED = 0, 1, 99
# What ends a try: from backfill, a terminal, or one that is closed.
END_SIGNALS = (signal.SIGTERM, signal.SIGINT, signal.SIGHUP)


class TryEnded(BaseException):
    """A signal that ends the try. (Not an Exception, so that user code lets it through.)"""


def main(words: Sequence[str]) -> int:
    """Makes the try of these words. Returns its status."""
    if words and words[0] in ("--help", "-h"):
        print(HELP)
        return SUCCESS
    try:
        given = TryWords(words)
    except WrongWords as error:
        print(f"error: {error}\n\nFor more information, try 'python3 -m backfill_airflow try --help'.", file=sys.stderr)
        return 2
    # What the DAG file and its tasks print goes to standard error, and the value alone to standard output.
    output = os.dup(1)
    os.dup2(2, 1)
    sys.stdout.reconfigure(line_buffering=True)  # type: ignore[attr-defined]
    if given.backoff is not None:
        from .backoff import Backoff, run_tries

        instance = f"{given.dag_id}#{given.task_id}#{given.start}"
        return run_tries(Backoff.of_words(given.backoff), instance, lambda number: _attempt(given, output, number))
    return _leave(_attempt(given, output, given.try_number))


def _attempt(given: TryWords, output: int, number: int) -> int:
    """Makes the try of a number. Returns its status."""
    attempt = Attempt(given, number)
    status = attempt.run()
    if status == SUCCESS:
        data = (attempt.line + "\n").encode("utf-8")
        while data:
            data = data[os.write(output, data) :]
    return status


def _leave(status: int) -> int:
    """Ends the process where a thread of user code would keep it, else returns the status."""
    threading = sys.modules.get("threading")
    if threading is not None and any(not each.daemon and each is not threading.main_thread() for each in threading.enumerate()):
        for stream in (sys.stdout, sys.stderr):
            stream.flush()
        os._exit(status)
    return status


class Attempt:
    """A try of a task. `line` is what it pushes, once it has run as a success."""

    def __init__(self, given: TryWords, number: int) -> None:
        self.given, self.number = given, number
        self.line = ""
        # The task of the DAG; and what is called, which for an instance of an expanded task is made of its item.
        self.own: Any = None
        self.task: Any = None
        self.context: Any = None
        self._killed = False

    def run(self) -> int:
        """Makes the try. Returns its status."""
        for each in END_SIGNALS:
            signal.signal(each, self._on_signal)
        try:
            self._load()
        except BaseException as error:
            return self._tell(error, "the DAG file can't be loaded")
        try:
            self._make_context()
            if self.given.is_for_items:
                self.line = self._items_line()
                return SUCCESS
            self._make_task()
            self.line = self._call()
        except errors.AirflowSkipException as error:
            return self._skip(error)
        except BaseException as error:
            return self._fail(error)
        self._settle("success", "success")
        return SUCCESS

    # ---- before the task is called

    def _load(self) -> None:
        from . import loading, logs

        logs.install()
        given = self.given
        Reading.trying = True
        # (the DAG file may change the folder)
        Reading.external = {dag_id: os.path.abspath(path) for dag_id, path in given.external.items()}
        dag = loading.choose(loading.load(given.path, given.folder, given.modules), given.dag_id, given.path)
        self.own = self.task = dag.get_task(given.task_id)

    def _make_context(self) -> None:
        from . import codec, running
        from .context import make_context

        given = self.given
        if "BACKFILL_TASK_ID" not in os.environ:
            from .by_hand import tell_missing

            tell_missing(self.own, given)
        pulled: Dict[str, Any] = {source: codec.decode_word(word) for source, word in given.pulls.items()}
        for source, words in given.parts.items():
            values = [codec.decode_word(word) for word in words]
            pulled[source] = [value for value in values if value is not None]
        self.context = make_context(self.own, given.start, given.end, given.map_index, self.number, pulled)
        os.environ.update(self.context.environment())
        running.contexts.append(self.context)

    def _items_line(self) -> str:
        from .codec import MOST_ITEMS, encode

        if self.given.skips_without and None in self.context["ti"].given.values():
            raise errors.AirflowSkipException("a task over whose value this one is expanded was skipped")
        source = self.own if self.own.is_mapped else self.own.mapped_group
        items = source.items(self.context)
        if len(items) > MOST_ITEMS:
            raise errors.AirflowException(f"{len(items)} items, and a task is expanded over at most {MOST_ITEMS}")
        return encode(items, f"the items of {self.given.task_id}")

    def _make_task(self) -> None:
        """Makes what is called of the task's item, and tells the context of a mapped group's."""
        from .codec import SKIPPED_ITEM, decode_word
        from .groups import arguments_of

        group, index = self.own.mapped_group, self.given.group_index
        item = None if self.given.item is None else decode_word(self.given.item, item=True)
        if item is None and self.given.item is None and (self.own.is_mapped or group is not None and index is None):
            raise errors.AirflowException(f"task {self.given.task_id} is expanded: a try of it takes --item ITEM")
        if item is SKIPPED_ITEM:
            raise errors.AirflowSkipException("the .map() function skipped this item")
        if index is not None:
            self.context["ti"].map_index = index
            self.context["group_item"] = group.items(self.context)[index]
        elif group is not None:
            self.context["group_item"] = arguments_of(group, item)
        if self.own.is_mapped:
            self.task = self.own.unmap(item)
            self.context["task"] = self.context["ti"].task = self.task

    # ---- the task

    def _call(self) -> str:
        """Calls the task as Airflow does. Returns the line that pushes its value."""
        from .answers import answer, check_branch
        from .callbacks import call_back
        from .templates import Renderer

        task, context = self.task, self.context
        Renderer(task, context).render_task()
        task.pre_execute(context)
        call_back(task, context, "execute")
        result = self._execute()
        task.post_execute(context, result)
        line = answer(self.own, result, context["ti"].pushed)
        if self.given.is_pulled:
            check_branch(task, line)
        return line

    def _execute(self) -> Any:
        """What execute() returns, within its time; sys.exit(0) in it is a success."""
        limit = self.task.execution_timeout
        if limit is not None:
            signal.signal(signal.SIGALRM, self._on_alarm)
            signal.setitimer(signal.ITIMER_REAL, max(limit.total_seconds(), 0.001))
        try:
            return self.task.execute(self.context)
        except SystemExit as error:
            if error.code not in (None, 0):
                raise errors.AirflowException(f"Task failed due to SystemExit({error.code})") from error
            return None
        except errors.AirflowTaskTimeout:
            self._kill()
            raise
        finally:
            if limit is not None:
                signal.setitimer(signal.ITIMER_REAL, 0)

    def _on_alarm(self, *_: Any) -> NoReturn:
        raise errors.AirflowTaskTimeout(f"Timeout, execution_timeout={self.task.execution_timeout}")

    def _on_signal(self, number: int, _: Any) -> NoReturn:
        name = signal.Signals(number).name
        self._kill()
        raise TryEnded(f"Task received {name} signal")

    def _kill(self) -> None:
        """Calls on_kill once, which ends what the task has started."""
        if self._killed or self.context is None:
            return
        self._killed = True
        try:
            self.task.on_kill()
        except Exception as error:
            self._tell(error, "")

    # ---- after it

    def _skip(self, error: BaseException) -> int:
        from .logs import log_line

        log_line("taskinstance.py", 0, "INFO", f"Skipping: {error}" if str(error) else "Skipping")
        self._settle("skipped", "skipped")
        return SKIPPED

    def _fail(self, error: BaseException) -> int:
        """Tells an error, with the callbacks for it. Returns the status."""
        is_final = self.number > self.own.retries
        is_forced = isinstance(error, (errors.AirflowFailException, errors.AirflowSensorTimeout))
        inside = self.given.backoff is not None
        self._tell(error, "")
        if is_forced and not is_final and not inside:
            print(
                f"backfill_airflow: Airflow makes no further try after {type(error).__name__}; "
                f"backfill makes the tries that retries={self.own.retries} allows",
                file=sys.stderr,
            )
        if self.context is not None:
            self.context["exception"] = error
        ends = is_final or is_forced and inside
        self._settle("failed" if ends else "up_for_retry", "failure" if ends else "retry")
        if isinstance(error, TryEnded):
            from .isolation import end_programs

            end_programs()
        if inside and (is_forced or isinstance(error, TryEnded)):
            from .backoff import NO_FURTHER

            return NO_FURTHER
        return FAILED

    def _settle(self, state: str, callback: str) -> None:
        """Tells the task instance its state, and calls the callbacks for it. A try that pushes items isn't one of the task."""
        if self.context is None or self.given.is_for_items:
            return
        from .callbacks import call_back
        from .timezone import utcnow

        instance = self.context["ti"]
        instance.state, instance.end_date = state, utcnow()
        instance.duration = (instance.end_date - instance.start_date).total_seconds()
        call_back(self.task, self.context, callback)

    def _tell(self, error: BaseException, words: Optional[str]) -> int:
        from .tracebacks import print_error

        print_error(error)
        if words:
            print(f"backfill_airflow: {words}", file=sys.stderr)
        return FAILED
