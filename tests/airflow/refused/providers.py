"""Operators and hooks of providers, which take Airflow: as a task, in a callable, imported within one, and mapped."""
from datetime import datetime

from airflow import DAG
from airflow.operators.python import ExternalPythonOperator, PythonOperator, PythonVirtualenvOperator
from airflow.providers.postgres.hooks.postgres import PostgresHook
from airflow.providers.postgres.operators.postgres import PostgresOperator
from airflow.utils.session import create_session
from airflow.operators.email import EmailOperator
from airflow.operators.latest_only import LatestOnlyOperator
from airflow.operators.trigger_dagrun import TriggerDagRunOperator
from airflow.operators.subdag import SubDagOperator
from airflow.operators.weekday import BranchDayOfWeekOperator
from airflow.sensors.external_task import ExternalTaskSensor


def read():
    return PostgresHook("dw").get_first("select 1")


def asks():
    with create_session() as session:
        return session


def within():
    from airflow.providers.amazon.aws.hooks.s3 import S3Hook  # refused: task within: airflow.providers.amazon.aws.hooks.s3.S3Hook isn't in backfill_airflow | a module of your own that has a class S3Hook (a BaseOperator with execute(context), or a plain class), given by --with MODULE; or a BashOperator or @task that does the same

    return S3Hook().read_key("x")


with DAG("providers", start_date=datetime(2024, 1, 1), schedule="@daily"):
    PythonOperator(task_id="read", python_callable=read)  # refused: task read: airflow.providers.postgres.hooks.postgres.PostgresHook isn't in backfill_airflow | a module of your own that has a class PostgresHook (a BaseOperator with execute(context), or a plain class), given by --with MODULE; or a BashOperator or @task that does the same
    PythonOperator(task_id="within", python_callable=within)
    PythonOperator(task_id="asks", python_callable=asks)  # refused: task asks: airflow.utils.session.create_session isn't in backfill_airflow | do without it: there is no database or server of Airflow here
    PostgresOperator(task_id="create", postgres_conn_id="dw", sql="create table t ()")  # refused: task create: airflow.providers.postgres.operators.postgres.PostgresOperator isn't in backfill_airflow | a module of your own that has a class PostgresOperator (a BaseOperator with execute(context), or a plain class), given by --with MODULE; or a BashOperator or @task that does the same
    PostgresOperator.partial(task_id="each", postgres_conn_id="dw").expand(sql=["select 1"])  # refused: task each: airflow.providers.postgres.operators.postgres.PostgresOperator isn't in backfill_airflow | a module of your own that has a class PostgresOperator (a BaseOperator with execute(context), or a plain class), given by --with MODULE; or a BashOperator or @task that does the same
    EmailOperator(task_id="mail", to="a@example.com", subject="s", html_content="h")  # refused: task mail: airflow.operators.email.EmailOperator isn't in backfill_airflow | a @task that sends by smtplib
    LatestOnlyOperator(task_id="latest")  # refused: task latest: airflow.operators.latest_only.LatestOnlyOperator isn't in backfill_airflow | leave it out: write `before >> after` for `before >> latest_only >> after`; what may run on the latest day alone has no place in a run over past days
    TriggerDagRunOperator(task_id="trigger", trigger_dag_id="other")  # refused: task trigger: airflow.operators.trigger_dagrun.TriggerDagRunOperator isn't in backfill_airflow | make a graph of the other DAG, and run both over the same days, one after the other
    SubDagOperator(task_id="sub", subdag=None)  # refused: task sub: airflow.operators.subdag.SubDagOperator isn't in backfill_airflow | a TaskGroup
    BranchDayOfWeekOperator(task_id="weekday", follow_task_ids_if_true="a", follow_task_ids_if_false="b", week_day="Monday")  # refused: task weekday: airflow.operators.weekday.BranchDayOfWeekOperator isn't in backfill_airflow | a @task.branch that looks at logical_date.isoweekday()
    PythonVirtualenvOperator(task_id="venv", python_callable=read, requirements=["x"])  # refused: task venv: airflow.operators.python.PythonVirtualenvOperator isn't in backfill_airflow | make the environment once, and start its python from a BashOperator
    ExternalPythonOperator(task_id="external", python_callable=read, python="/usr/bin/python3")  # refused: task external: airflow.operators.python.ExternalPythonOperator isn't in backfill_airflow | start that python from a BashOperator
    ExternalTaskSensor(task_id="sensor", external_dag_id="other", external_task_id="t")  # refused: task sensor: ExternalTaskSensor of the DAG other | --external other=PATH, where the report or journal of that DAG's graph is; or run that graph first, and leave the sensor away
