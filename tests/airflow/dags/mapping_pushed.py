"""Tasks expanded over what others pushed: dicts, kwargs, what an expanded task pushed, .map, .zip and .concat."""
from datetime import datetime

from airflow.decorators import dag, task
from airflow.exceptions import AirflowSkipException


@dag(start_date=datetime(2024, 1, 1), schedule="@daily")
def mapping_pushed():
    @task
    def shops():
        return [{"name": "north", "n": 2}, {"name": "south", "n": 3}]

    @task
    def count(shop):
        return shop["name"] + "!" * shop["n"]

    @task
    def repeat(name, n):
        return [name] * n

    @task
    def length(text):
        return len(text)

    @task(trigger_rule="none_failed")
    def gather(values):
        return sorted(values)

    def without_south(text):
        if text.startswith("south"):
            raise AirflowSkipException("no south")
        return text.upper()

    all_shops = shops()
    counted = count.expand(shop=all_shops)
    repeat.expand_kwargs(all_shops)
    gather(length.expand(text=counted))
    gather(length.override(task_id="of_map").expand(text=counted.map(without_south)))

    @task
    def both(two):
        return f"{two[0]['n']} {two[1]}"

    both.expand(two=all_shops.zip(counted))
    length.override(task_id="of_all").expand(text=counted.concat(["x", "yz"]))


mapping_pushed()
