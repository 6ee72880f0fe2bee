"""A setup and a teardown by decorators, on days of which each goes otherwise."""
import pendulum

from airflow.decorators import dag, setup, task, teardown
from airflow.exceptions import AirflowSkipException


@dag(schedule="@daily", start_date=pendulum.datetime(2024, 1, 1, tz="UTC"), catchup=False)
def setup_teardown():
    @setup
    def create(ds=None):
        if ds == "2024-01-03":
            raise RuntimeError("no cluster")
        if ds == "2024-01-04":
            raise AirflowSkipException("no cluster wanted")
        return "cluster"

    @task
    def work(name, ds=None):
        if ds == "2024-01-02":
            raise ValueError("no data")
        return f"{name} used"

    @teardown
    def delete(name):
        return f"{name} deleted"

    made = create()
    made >> work(made) >> delete(made)


setup_teardown()
