"""BashOperator, and how a command of bash is run and ended."""

from __future__ import annotations

import os
import time

from .errors import AirflowException, AirflowSkipException
from .logs import log_line
from .base_operator import BaseOperator

TYPE_CHECKING = False
if TYPE_CHECKING:
    from typing import Any, Dict, List, Optional, Sequence, Tuple

# How long what a command started may take to end, in seconds.
GRACE = 2.0


class BashCommand:
    """A command of bash in a process group of its own."""

    def __init__(self) -> None:
        self.process: Any = None

    def run(self, command: str, env: Optional[Dict[str, str]], cwd: Optional[str], encoding: str) -> Tuple[int, str]:
        """Runs a command in a folder, or a new one; logs its output, and returns its status and the last line."""
        words = [_path_of_bash(), "-c", command]
        log_line("subprocess.py", 75, "INFO", f"Running command: {words}")
        log_line("subprocess.py", 86, "INFO", "Output:")
        folder = _new_folder()
        try:
            return self._run(words, env, cwd or folder, encoding)
        except BaseException:
            self.end()
            raise
        finally:
            _remove(folder)

    def _run(self, words: List[str], env: Optional[Dict[str, str]], cwd: str, encoding: str) -> Tuple[int, str]:
        import subprocess

        last = ""
        process: Any = subprocess.Popen(
            words, stdout=subprocess.PIPE, stderr=subprocess.STDOUT, cwd=cwd, env=env, start_new_session=True
        )
        self.process = process
        for raw in process.stdout:
            last = raw.decode(encoding, "backslashreplace").rstrip()
            log_line("subprocess.py", 93, "INFO", last)
        status: int = process.wait()
        log_line("subprocess.py", 97, "INFO", f"Command exited with return code {status}")
        return status, last

    def end(self) -> None:
        """Ends the process group: asks first, and kills what is still there after a while."""
        import signal

        if self.process is None or not self._signal(signal.SIGTERM):
            return
        end = time.monotonic() + GRACE
        while time.monotonic() < end:
            self.process.poll()
            if not self._signal(0):
                return
            time.sleep(0.02)
        self._signal(signal.SIGKILL)

    def _signal(self, number: int) -> bool:
        """Sends a signal to the group, and tells whether it is there."""
        try:
            os.killpg(self.process.pid, number)
        except (ProcessLookupError, PermissionError):
            return False
        return True


# (tempfile and shutil take 15 ms to import)


def _path_of_bash() -> str:
    paths = (os.path.join(folder, "bash") for folder in os.get_exec_path())
    return next((path for path in paths if os.access(path, os.X_OK)), "bash")


def _new_folder() -> str:
    """A new folder for temporary files, which nobody else may read."""
    path = os.path.join(os.environ.get("TMPDIR") or "/tmp", f"airflowtmp{os.getpid()}_{time.time_ns()}")
    os.mkdir(path, 0o700)
    return path


def _remove(folder: str) -> None:
    try:
        os.rmdir(folder)
    except OSError:
        import shutil

        shutil.rmtree(folder, ignore_errors=True)


class BashOperator(BaseOperator):
    """Runs a command of bash. The last line of its output is what it returns."""

    template_fields: Sequence[str] = ("bash_command", "env", "cwd")
    template_ext: Sequence[str] = (".sh", ".bash")

    def __init__(
        self, *, bash_command: Any, env: Optional[Dict[str, str]] = None, append_env: bool = False, output_encoding: str = "utf-8",
        skip_exit_code: Optional[int] = None, skip_on_exit_code: Any = 99, cwd: Optional[str] = None, output_processor: Any = None, **arguments: Any,
    ) -> None:
        super().__init__(**arguments)
        self.bash_command, self.env, self.append_env, self.cwd = bash_command, env, append_env, cwd
        self.output_encoding, self.output_processor = output_encoding, output_processor
        codes = skip_on_exit_code if skip_exit_code is None else skip_exit_code
        self.skip_on_exit_code = [codes] if isinstance(codes, int) else list(codes or ())
        self._bash = BashCommand()

    def get_env(self, context: Any) -> Dict[str, str]:
        """The environment of the command: this process's where no `env` is given, or below it with `append_env`; and what Airflow tells a task."""
        env = dict(os.environ) if self.env is None or self.append_env else {}
        env.update(self.env or {})
        env.update(context.environment())
        return env

    def execute(self, context: Any) -> Any:
        if self.cwd is not None and not os.path.exists(self.cwd):
            raise AirflowException(f"Can not find the cwd: {self.cwd}")
        if self.cwd is not None and not os.path.isdir(self.cwd):
            raise AirflowException(f"The cwd {self.cwd} must be a directory")
        status, last = self._bash.run(self.bash_command, self.get_env(context), self.cwd, self.output_encoding)
        if status in self.skip_on_exit_code:
            raise AirflowSkipException(f"Bash command returned exit code {status}. Skipping.")
        if status:
            raise AirflowException(f"Bash command failed. The command returned a non-zero exit code {status}.")
        return self.output_processor(last) if self.output_processor is not None else last

    def on_kill(self) -> None:
        self._bash.end()
