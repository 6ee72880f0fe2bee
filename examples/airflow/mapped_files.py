"""Dynamic task mapping: a task for each file of a day, one that adds up what they return, and kwargs that are made before."""
from datetime import datetime
from pathlib import Path

from airflow.decorators import dag, task
from airflow.exceptions import AirflowSkipException

ORDERS = Path(__file__).parent / "orders"


@dag(schedule="@weekly", start_date=datetime(2024, 3, 3), catchup=False)
def mapped_files():
    @task
    def list_files(data_interval_start=None, data_interval_end=None):
        days = [path.stem for path in sorted(ORDERS.glob("*.csv"))]
        return [f"{day}.csv" for day in days if f"{data_interval_start:%Y-%m-%d}" <= day < f"{data_interval_end:%Y-%m-%d}"]

    @task(max_active_tis_per_dag=2)
    def count_lines(name, least):
        lines = (ORDERS / name).read_text().splitlines()
        if len(lines) - 1 < least:
            raise AirflowSkipException(f"{name} has few lines")
        return {"name": name, "lines": len(lines) - 1}

    @task
    def describe(name, lines):
        return f"{name}: {lines}"

    @task(trigger_rule="none_failed_min_one_success")
    def total(counts):
        return sum(count["lines"] for count in counts)

    counted = count_lines.partial(least=2).expand(name=list_files())
    total(counted)
    describe.override(trigger_rule="none_failed").expand_kwargs(counted)


mapped_files()
