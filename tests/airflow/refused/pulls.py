"""Pulls whose source isn't known beforehand, that aren't of this run, or of tasks that may not have ended."""
from datetime import datetime

from airflow import DAG
from airflow.models import Variable, XCom
from airflow.operators.bash import BashOperator
from airflow.operators.empty import EmptyOperator
from airflow.operators.python import PythonOperator, ShortCircuitOperator


def chosen_late(ti, params):
    return ti.xcom_pull(task_ids=params["which"])  # refused: task chosen_late: xcom_pull whose task_ids are known in a try alone | --pull chosen_late=ID,ID with all tasks from which it may pull


def sideways(ti):
    return ti.xcom_pull(task_ids="chosen_late")


def yesterday(ti):
    last = ti.xcom_pull(task_ids="yesterday", include_prior_dates=True)  # refused: task yesterday: xcom_pull(include_prior_dates=..): a value is of its own run alone | keep what goes from day to day in a file or a table
    Variable.set("last", last)  # refused: task yesterday: Variable.set: there is no database of Variables | write a file, or push a value
    return last


def database(run_id):
    return XCom.get_one(run_id=run_id, task_id="a")  # refused: task database: XCom.get_one: there is no database of XComs | ti.xcom_pull(task_ids=..)


def part(ti):
    return ti.xcom_pull(task_ids="sideways", map_indexes=[0])  # refused: task part: xcom_pull(map_indexes=..) | pull the list of all instances, and take from it


def run_before(ti):
    return ti.xcom_pull(task_ids="sideways", run_id="scheduled__2024-01-01T00:00:00+00:00")  # refused: task run_before: xcom_pull(run_id=..): a value is of its own run alone | keep what goes from day to day in a file or a table


with DAG("pulls", start_date=datetime(2024, 1, 1), schedule="@daily") as dag:
    a = PythonOperator(task_id="chosen_late", python_callable=chosen_late)
    b = PythonOperator(task_id="sideways", python_callable=sideways)  # refused: task sideways: pulls from chosen_late, which may not have ended by then | an edge chosen_late >> sideways (and no one_.. or always rule between)
    PythonOperator(task_id="yesterday", python_callable=yesterday)
    PythonOperator(task_id="database", python_callable=database)
    b >> [PythonOperator(task_id="part", python_callable=part), PythonOperator(task_id="run_before", python_callable=run_before)]
    BashOperator(task_id="any", bash_command="echo {{ ti.xcom_pull(key='rows') }}")  # refused: task any: xcom_pull without task_ids takes whatever was pushed last | name the task: xcom_pull(task_ids='extract', ..)
    BashOperator(task_id="other_dag", bash_command="echo {{ ti.xcom_pull(dag_id='x', task_ids='y') }}")  # refused: task other_dag: xcom_pull from another DAG (x) | read what that DAG leaves: its report by --out, or a file
    a >> BashOperator(task_id="early", bash_command="echo {{ ti.xcom_pull('chosen_late') }}", trigger_rule="one_success")  # refused: task early: pulls from chosen_late under trigger_rule='one_success', by which it may run before that has ended | a rule that waits for all tasks before it, as none_failed or all_done
    BashOperator(task_id="past", bash_command="echo {{ prev_data_interval_start_success }}")  # refused: task past: bash_command uses prev_data_interval_start_success: which run before succeeded isn't told to a program | compute the date from data_interval_start
    stop = ShortCircuitOperator(task_id="stop", python_callable=lambda: True)
    stop >> BashOperator(task_id="of_short_circuit", bash_command="echo {{ ti.xcom_pull('stop') }}")  # refused: task of_short_circuit: a pull from stop, a short circuit: what it pushes here is what it follows | return the value from a task before it, and pull from that
    many = [PythonOperator(task_id=f"n{n}", python_callable=lambda: 1) for n in range(17)]
    many >> PythonOperator(task_id="of_many", python_callable=lambda ti: ti.xcom_pull(task_ids=[f"n{n}" for n in range(17)]))  # refused: task of_many: pulls from 17 tasks, and a command has at most 16 | a task between that gathers 16 of them
