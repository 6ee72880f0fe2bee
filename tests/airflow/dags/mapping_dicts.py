"""Tasks expanded over dicts, pushed and literal: an item is a pair."""
from datetime import datetime

from airflow.decorators import dag, task


@dag(start_date=datetime(2024, 1, 1), schedule="@daily")
def mapping_dicts():
    @task
    def prices():
        return {"apple": 3, "pear": {"kilo": 5.5}}

    @task
    def show(entry):
        name, price = entry
        return f"{name} {price}"

    @task
    def names(all_prices):
        return [type(all_prices).__name__, list(all_prices)]

    made = prices()
    show.expand(entry=made)
    names(made)
    show.override(task_id="literal").expand(entry={"plum": 1, "nut": None})


mapping_dicts()
