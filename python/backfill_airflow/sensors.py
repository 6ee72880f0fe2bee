"""Sensors: tasks that look again and again until something is so."""

from __future__ import annotations

import datetime as dt
import os
import time

from .bash import BashCommand
from .dates import aware
from .errors import (
    AirflowException, AirflowFailException, AirflowNotFoundException, AirflowSensorTimeout, AirflowSkipException, AirflowTaskTimeout,
)
from .logs import log_line
from .base_operator import BaseOperator
from .running import call_with_context

TYPE_CHECKING = False
if TYPE_CHECKING:
    from typing import Any, Callable, Dict, Optional, Sequence


class PokeReturnValue:
    """What a poke has found, with a value to push."""

    def __init__(self, is_done: bool, xcom_value: Any = None) -> None:
        self.is_done, self.xcom_value = is_done, xcom_value

    def __bool__(self) -> bool:
        return bool(self.is_done)


def _seconds(value: Any, name: str) -> float:
    seconds = value.total_seconds() if isinstance(value, dt.timedelta) else value
    if not isinstance(seconds, (int, float)) or seconds < 0:
        raise AirflowException(f"The {name} must be timedelta object or a non-negative number")
    return float(seconds)


class BaseSensorOperator(BaseOperator):
    """A sensor. It pokes in one try in either mode, and so keeps its worker."""

    is_sensor = True

    def __init__(
        self, *, poke_interval: Any = 60, timeout: Any = 60 * 60 * 24 * 7, soft_fail: bool = False, mode: str = "poke",
        exponential_backoff: bool = False, max_wait: Any = None, silent_fail: bool = False, never_fail: bool = False, deferrable: bool = False,
        **arguments: Any,
    ) -> None:
        super().__init__(**arguments)
        self.poke_interval, self.timeout = _seconds(poke_interval, "poke_interval"), _seconds(timeout, "timeout")
        self.max_wait = None if max_wait is None else _seconds(max_wait, "max_wait")
        self.soft_fail, self.silent_fail, self.never_fail = soft_fail, silent_fail, never_fail
        self.exponential_backoff, self.mode, self.deferrable = exponential_backoff, mode, deferrable
        if mode not in ("poke", "reschedule"):
            raise AirflowException(f"The mode must be one of ['poke', 'reschedule'], '{self.task_id}'; received '{mode}'.")
        if soft_fail and never_fail:
            raise ValueError("soft_fail and never_fail are mutually exclusive, you can not provide both.")

    def poke(self, context: Any) -> Any:
        """Whether it is so."""
        raise AirflowException("Override me.")

    def execute(self, context: Any) -> Any:
        started, pokes = time.monotonic(), 1
        while True:
            found = self._poke(context)
            if found:
                return found.xcom_value if isinstance(found, PokeReturnValue) else None
            passed = time.monotonic() - started
            if passed > self.timeout:
                message = f"Sensor has timed out; run duration of {passed} seconds exceeds the specified timeout of {self.timeout}."
                raise AirflowSkipException(message) if self.soft_fail else AirflowSensorTimeout(message)
            time.sleep(self._wait(pokes, passed))
            pokes += 1

    def _poke(self, context: Any) -> Any:
        """A poke, with what soft_fail, never_fail and silent_fail make of its exceptions."""
        try:
            return self.poke(context)
        except AirflowSkipException:
            raise
        except (AirflowSensorTimeout, AirflowTaskTimeout, AirflowFailException) as error:
            if not self.soft_fail and not self.never_fail:
                raise
            raise AirflowSkipException(f"Skipping due to {'soft_fail' if self.soft_fail else 'never_fail'} is set to True.") from error
        except Exception as error:
            if self.never_fail and not self.silent_fail:
                raise AirflowSkipException("Skipping due to never_fail is set to True.") from error
            if not self.silent_fail:
                raise
            import traceback

            log_line("base.py", 294, "ERROR", f"Sensor poke failed: \n {traceback.format_exc()}")
            return False

    def _wait(self, pokes: int, passed: float) -> float:
        """How many seconds to wait for the next poke: with exponential backoff up to twice as long each time, by chance."""
        if not self.exponential_backoff:
            return self.poke_interval
        import random

        least = max(int(self.poke_interval * 2 ** min(pokes - 2, 60)), 1)
        wait = min(self.timeout - int(passed), least + random.randrange(least))
        return max(0.0, wait if self.max_wait is None else min(wait, self.max_wait))


class PythonSensor(BaseSensorOperator):
    """Waits until a function returns something true."""

    template_fields: Sequence[str] = ("templates_dict", "op_args", "op_kwargs")

    def __init__(
        self, *, python_callable: Callable[..., Any], op_args: Any = None, op_kwargs: Any = None, templates_dict: Any = None, **arguments: Any
    ) -> None:
        super().__init__(**arguments)
        self.python_callable, self.templates_dict = python_callable, templates_dict
        self.op_args, self.op_kwargs = op_args or [], op_kwargs or {}

    def poke(self, context: Any) -> Any:
        found = call_with_context(self, context)
        return found if isinstance(found, PokeReturnValue) else PokeReturnValue(bool(found))


class BashSensor(BaseSensorOperator):
    """Waits until a command of bash ends with status 0."""

    template_fields: Sequence[str] = ("bash_command", "env")

    def __init__(
        self, *, bash_command: Any, env: Optional[Dict[str, str]] = None, output_encoding: str = "utf-8", retry_exit_code: Optional[int] = None,
        **arguments: Any,
    ) -> None:
        super().__init__(**arguments)
        self.bash_command, self.env, self.output_encoding, self.retry_exit_code = bash_command, env, output_encoding, retry_exit_code
        self._bash = BashCommand()

    def poke(self, context: Any) -> bool:
        status, _ = self._bash.run(self.bash_command, self.env, None, self.output_encoding)
        if self.retry_exit_code is not None and status not in (0, self.retry_exit_code):
            raise AirflowFailException(f"Command exited with return code {status}")
        return status == 0

    def on_kill(self) -> None:
        self._bash.end()


class FileSensor(BaseSensorOperator):
    """Waits for a file, or a folder with a file in it. The path of the connection, or /, stands before a relative one."""

    template_fields: Sequence[str] = ("filepath",)

    def __init__(self, *, filepath: str, fs_conn_id: str = "fs_default", recursive: bool = False, **arguments: Any) -> None:
        super().__init__(**arguments)
        self.filepath, self.fs_conn_id, self.recursive = filepath, fs_conn_id, recursive

    def _base(self) -> str:
        from .connections import BaseHook

        try:
            return str(BaseHook.get_connection(self.fs_conn_id).extra_dejson.get("path", ""))
        except AirflowNotFoundException:
            if self.fs_conn_id != "fs_default":
                raise
            return "/"

    def poke(self, context: Any) -> bool:
        import glob

        for path in glob.glob(os.path.join(self._base(), self.filepath), recursive=self.recursive):
            if os.path.isfile(path) or any(files for _, _, files in os.walk(path)):
                return True
        return False


class DateTimeSensor(BaseSensorOperator):
    """Waits until a moment."""

    template_fields: Sequence[str] = ("target_time",)

    def __init__(self, *, target_time: Any, **arguments: Any) -> None:
        super().__init__(**arguments)
        if not isinstance(target_time, (str, dt.datetime)):
            raise TypeError(f"Expected str or datetime.datetime type for target_time. Got {type(target_time)}")
        self.target_time = target_time.isoformat() if isinstance(target_time, dt.datetime) else target_time

    def poke(self, context: Any) -> bool:
        return bool(dt.datetime.now(dt.timezone.utc) > aware(self.target_time))


class TimeDeltaSensor(BaseSensorOperator):
    """Waits until so long after the end of the data interval."""

    def __init__(self, *, delta: dt.timedelta, **arguments: Any) -> None:
        super().__init__(**arguments)
        self.delta = delta

    def poke(self, context: Any) -> bool:
        return bool(dt.datetime.now(dt.timezone.utc) > context["data_interval_end"] + self.delta)


class TimeSensor(BaseSensorOperator):
    """Waits until a time of the day on which it runs, in the zone of the DAG."""

    def __init__(self, *, target_time: dt.time, **arguments: Any) -> None:
        super().__init__(**arguments)
        self.target_time = target_time

    def poke(self, context: Any) -> bool:
        return dt.datetime.now(self.dag.timezone).time() > self.target_time
