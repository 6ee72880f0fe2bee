"""A daily ETL in the TaskFlow style: the orders of a day are read, added up, and written to a file of that day."""
import csv
import json
import tempfile
from datetime import timedelta
from pathlib import Path

import pendulum

from airflow.decorators import dag, task
from airflow.exceptions import AirflowSkipException

ORDERS = Path(__file__).parent / "orders"
TARGET = Path(tempfile.gettempdir()) / "sales"


@dag(
    schedule="@daily",
    start_date=pendulum.datetime(2024, 3, 1, tz="UTC"),
    catchup=False,
    default_args={"retries": 2, "retry_delay": timedelta(seconds=1)},
    tags=["example"],
)
def daily_sales():
    @task
    def extract(ds=None):
        path = ORDERS / f"{ds}.csv"
        if not path.exists():
            raise AirflowSkipException(f"no orders on {ds}")
        with path.open() as file:
            return [[row["shop"], int(row["cents"])] for row in csv.DictReader(file)]

    @task(multiple_outputs=True)
    def transform(orders):
        return {"total": sum(cents for _, cents in orders), "shops": sorted({shop for shop, _ in orders})}

    @task
    def load(total: int, shops: list, ds=None):
        TARGET.mkdir(exist_ok=True)
        (TARGET / f"{ds}.json").write_text(json.dumps({"total": total, "shops": shops}))
        return f"{total / 100:.2f} in {len(shops)} shops"

    summary = transform(extract())
    load(summary["total"], summary["shops"])


daily_sales()
