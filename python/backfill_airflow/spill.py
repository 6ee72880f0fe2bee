"""Longer values, in files of the folder BACKFILL_AIRFLOW_SPILL.

A file has the JSON of a value (see `tagged`), and is named by the SHA-256 of what it holds, so a try that is made again writes the same file.
"""

from __future__ import annotations

TYPE_CHECKING = False
if TYPE_CHECKING:
    from typing import Optional

VARIABLE = "BACKFILL_AIRFLOW_SPILL"


def spill(text: str) -> Optional[str]:
    """Writes a text to a file of the folder, whole or not at all. Returns the name of the file without `.json`, or None without a folder."""
    import hashlib
    import os

    folder = os.environ.get(VARIABLE)
    if not folder:
        return None
    data = text.encode()
    name = hashlib.sha256(data).hexdigest()
    os.makedirs(folder, exist_ok=True)
    path = os.path.join(folder, f"{name}.json")
    if not os.path.exists(path):
        partial = f"{path}.{os.getpid()}"
        with open(partial, "wb") as file:
            file.write(data)
        os.replace(partial, path)
    return name


def read_spilled(name: str) -> str:
    """The text of a file of the folder. Raises a CodecError where no folder is named."""
    import os

    from .tagged import CodecError

    folder = os.environ.get(VARIABLE)
    if not folder:
        raise CodecError(f"a value was written to the file {name}.json: set {VARIABLE} to its folder")
    with open(os.path.join(folder, f"{name}.json"), encoding="utf-8") as file:
        return file.read()
