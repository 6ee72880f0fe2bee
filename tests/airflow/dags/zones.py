"""A schedule in a zone, over the night in which its clocks go forward."""
import pendulum

from airflow import DAG
from airflow.decorators import task

local = pendulum.timezone("Europe/Paris")

with DAG("zones", start_date=pendulum.datetime(2024, 3, 1, tz=local), schedule="0 6 * * *", catchup=False) as dag:

    @task
    def moments(ds, ts, logical_date=None, data_interval_end=None):
        return [ds, ts, logical_date.in_timezone(local).strftime("%H:%M %Z"), data_interval_end.in_timezone("Europe/Paris").strftime("%d %H:%M")]

    @task
    def kept(data_interval_end=None):
        return [data_interval_end, data_interval_end.in_tz(local), data_interval_end.date()]

    moments()
    kept()
