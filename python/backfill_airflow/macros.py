"""What templates call by `macros`, and DAG files take from airflow.macros."""

from __future__ import annotations

import datetime as dt

TYPE_CHECKING = False
if TYPE_CHECKING:
    from typing import Any

MODULES = ("dateutil", "json", "random", "time", "uuid")


def ds_add(ds: str, days: int) -> str:
    """A date as `2024-03-04`, so many days later."""
    if not days:
        return str(ds)
    return (dt.datetime.strptime(str(ds), "%Y-%m-%d") + dt.timedelta(days=days)).strftime("%Y-%m-%d")


def ds_format(ds: str, input_format: str, output_format: str) -> str:
    """A date in another format of strftime."""
    return dt.datetime.strptime(str(ds), input_format).strftime(output_format)


def datetime_diff_for_humans(at: Any, since: Any = None) -> str:
    """How far two moments are apart, in words; it takes pendulum."""
    import pendulum

    return str(pendulum.instance(at).diff_for_humans(None if since is None else pendulum.instance(since)))


class Macros:
    """The namespace `macros` of a template: functions of this module, `datetime`, `timedelta`, and modules, imported when they are asked for."""

    datetime, timedelta = dt.datetime, dt.timedelta
    ds_add = staticmethod(ds_add)
    ds_format = staticmethod(ds_format)
    datetime_diff_for_humans = staticmethod(datetime_diff_for_humans)

    def __getattr__(self, name: str) -> Any:
        if name not in MODULES:
            raise AttributeError(f"macros has no {name}")
        import importlib

        module = importlib.import_module(name)
        # (Airflow hands out the function random.random)
        return module.random if name == "random" else module


macros = Macros()
