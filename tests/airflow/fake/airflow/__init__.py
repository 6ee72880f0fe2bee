"""As much of Airflow's own interface as `compare` reads of it. With FAKE_AIRFLOW=otherwise it reads DAG files otherwise."""
import collections
import datetime
import os

__version__ = "2.9.9"
OTHERWISE = os.environ.get("FAKE_AIRFLOW") == "otherwise"
Interval = collections.namedtuple("Interval", "start end")
Info = collections.namedtuple("Info", "data_interval")


class DAG:
    opened = []
    found = {}

    def __init__(self, dag_id, *, schedule=None, start_date=None, max_active_runs=16, default_args=None):
        self.dag_id, self.schedule, self.max_active_runs = dag_id, schedule, max_active_runs
        self.start_date = start_date.replace(tzinfo=datetime.timezone.utc)
        self.default_args = default_args or {}
        self.tasks = []
        DAG.found[dag_id] = self

    def __enter__(self):
        DAG.opened.append(self)
        return self

    def __exit__(self, *_):
        DAG.opened.pop()

    def iter_dagrun_infos_between(self, earliest, latest):
        start = earliest + datetime.timedelta(hours=1 if OTHERWISE else 0)
        while start <= latest:
            yield Info(Interval(start, start + datetime.timedelta(days=1)))
            start += datetime.timedelta(days=1)
