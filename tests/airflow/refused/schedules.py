"""Schedules without data intervals, and those that have no form in cron."""
# graph --dag none
# graph --dag once
# graph --dag continuous
# graph --dag delta
# graph --dag dataset
# graph --dag six
# graph --dag last_day
# graph --dag step
# graph --dag nonsense
# graph --dag never
# graph --dag trigger
# graph --dag own
# graph --dag range
from datetime import datetime, timedelta

from airflow import DAG, Dataset
from airflow.timetables.base import Timetable
from airflow.timetables.trigger import CronTriggerTimetable
from airflow.operators.empty import EmptyOperator


class Workdays(Timetable):
    pass


start = {"start_date": datetime(2024, 1, 1)}
with DAG("none", schedule=None, **start):  # refused 1: schedule=None: there are no data intervals to run | give one on the line, as --schedule '@daily'
    EmptyOperator(task_id="a")
with DAG("once", schedule="@once", **start):  # refused 2: schedule='@once': there are no data intervals to run | give one on the line, as --schedule '@daily'
    EmptyOperator(task_id="a")
with DAG("continuous", schedule="@continuous", max_active_runs=1, **start):  # refused 3: schedule='@continuous': there are no data intervals to run | give one on the line, as --schedule '@daily'
    EmptyOperator(task_id="a")
with DAG("delta", schedule=timedelta(hours=36), **start):  # refused 4: schedule: datetime.timedelta(days=1, seconds=43200) has no form in cron | a cron schedule in the DAG; or --schedule with the cron that you mean
    EmptyOperator(task_id="a")
with DAG("dataset", schedule=[Dataset("x")], **start):  # refused 5: a schedule of datasets | give one on the line, as --schedule '@daily'
    EmptyOperator(task_id="a")
with DAG("six", schedule="0 6 * * * 30", **start):  # refused 6: schedule '0 6 * * * 30': 6 fields in place of 5 (seconds aren't there) | five fields of cron, each of *, a, a-b, */n, a-b/n and lists of them; or --schedule
    EmptyOperator(task_id="a")
with DAG("last_day", schedule="0 6 L * *", **start):  # refused 7: schedule '0 6 L * *': day of the month: 'L' is beyond crontab(5) | five fields of cron, each of *, a, a-b, */n, a-b/n and lists of them; or --schedule
    EmptyOperator(task_id="a")
with DAG("step", schedule="5/15 * * * *", **start):  # refused 8: schedule '5/15 * * * *': minute: '5/15' isn't *, */n, or numbers from 0 to 59, each alone or as a-b or a-b/n (it means 5-59/15) | five fields of cron, each of *, a, a-b, */n, a-b/n and lists of them; or --schedule
    EmptyOperator(task_id="a")
with DAG("nonsense", schedule="@fortnightly", **start):  # refused 9: schedule '@fortnightly': no preset that backfill knows | five fields of cron, each of *, a, a-b, */n, a-b/n and lists of them; or --schedule
    EmptyOperator(task_id="a")
with DAG("never", schedule="0 0 30 2 *", **start):  # refused 10: schedule '0 0 30 2 *': it never fires | five fields of cron, each of *, a, a-b, */n, a-b/n and lists of them; or --schedule
    EmptyOperator(task_id="a")
with DAG("trigger", schedule=CronTriggerTimetable("0 6 * * *", timezone="UTC"), **start):  # refused 11: a schedule of type CronTriggerTimetable | cron, a preset or a timedelta in the DAG; or give one on the line, as --schedule '@daily'
    EmptyOperator(task_id="a")
with DAG("own", timetable=Workdays(), **start):  # refused 12: a schedule of type Workdays | cron, a preset or a timedelta in the DAG; or give one on the line, as --schedule '@daily'
    EmptyOperator(task_id="a")
with DAG("range", schedule="61 * * * *", **start):  # refused 13: schedule '61 * * * *': minute: '61' isn't *, */n, or numbers from 0 to 59, each alone or as a-b or a-b/n | five fields of cron, each of *, a, a-b, */n, a-b/n and lists of them; or --schedule
    EmptyOperator(task_id="a")
