"""A timetable of data intervals in place of a schedule, and a schedule that counts in weeks."""
from datetime import datetime, timedelta

import pendulum

from airflow import DAG
from airflow.decorators import task
from airflow.timetables.interval import CronDataIntervalTimetable, DeltaDataIntervalTimetable


@task
def interval(data_interval_start=None, data_interval_end=None):
    return (data_interval_end - data_interval_start).total_seconds()


with DAG("by_cron", start_date=datetime(2024, 1, 1), timetable=CronDataIntervalTimetable("30 1 * * 1", timezone="UTC")):
    interval()

with DAG("by_delta", start_date=pendulum.datetime(2024, 1, 3, 4, 30), schedule=DeltaDataIntervalTimetable(timedelta(weeks=1))):
    interval()
