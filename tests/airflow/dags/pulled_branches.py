"""Tasks that pull from a branch get what it returned, where that is what the graph follows."""
from datetime import datetime

from airflow.decorators import dag, task, task_group


@dag(start_date=datetime(2024, 1, 1), schedule="@daily")
def pulled_branches():
    @task.branch
    def choose(ds=None):
        return {"2024-01-01": "a", "2024-01-02": ["a", "told"], "2024-01-03": "group"}[ds]

    @task
    def a():
        return "a"

    @task_group
    def group():
        @task
        def inner():
            return "inner"

        inner()

    @task(trigger_rule="none_failed")
    def told(ti=None):
        return ti.xcom_pull(task_ids="choose")

    chosen, last = choose(), told()
    chosen >> [a(), group(), last]
    chosen >> a.override(task_id="before")() >> last


pulled_branches()
