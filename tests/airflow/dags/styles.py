"""Many styles at once."""
import logging
import textwrap
from datetime import datetime, timedelta
from typing import Any

import pendulum
from airflow import DAG
from airflow.decorators import task, task_group
from airflow.exceptions import AirflowSkipException
from airflow.models.baseoperator import BaseOperator, chain, cross_downstream
from airflow.operators.bash import BashOperator
from airflow.operators.empty import EmptyOperator
from airflow.operators.python import ExternalPythonOperator, PythonOperator, PythonVirtualenvOperator
from airflow.providers.slack.notifications.slack import send_slack_notification
from airflow.sensors.time_delta import TimeDeltaSensorAsync
from airflow.utils.context import Context
from airflow.utils.dates import days_ago
from airflow.utils.task_group import TaskGroup
from airflow.utils.timezone import datetime as at

log = logging.getLogger(__name__)


class EmptySkip(EmptyOperator):
    ui_color = "#e8b7e4"

    def execute(self, context: Context):
        raise AirflowSkipException


dag = DAG("styles", start_date=pendulum.today("UTC").add(days=-400), schedule="@daily", dagrun_timeout=timedelta(minutes=60), doc_md=__doc__,
          default_args={"on_failure_callback": [send_slack_notification(text="x")], "sla": timedelta(hours=1)})
a = BashOperator(task_id="a", bash_command="echo x", dag=dag)
a.doc_md = textwrap.dedent("""doc""")
b = PythonOperator(task_id="b", python_callable=lambda x, dag_run, **kw: (log.info("hi"), x, dag_run.conf.get("k", "none"))[1:], op_kwargs={"x": a.output}, dag=dag)
skip = EmptySkip(task_id="skip", dag=dag)
chain(a, [b, skip], EmptyOperator(task_id="c", dag=dag, trigger_rule="all_done"))
wait = TimeDeltaSensorAsync(task_id="wait", delta=timedelta(hours=1), dag=dag)

with dag:
    text = BashOperator(task_id="text", bash_command=f"echo got {a.output}")
    a >> text

    @task(max_active_tis_per_dag=1)
    def square(x):
        return x * x

    @task
    def more(x, plus, *, ti=None, **context: Any):
        return [x + plus, ti.map_index, context["task"].task_id]

    @task.bash(env={"K": "v"}, append_env=True)
    def shell(word):
        return f"echo {word} $K {{{{ ds }}}}"

    @task_group(group_id="tg", default_args={"retries": 1})
    def tg(n):
        @task
        def inner(n, params=None):
            return n + 1

        return inner(n)

    squares = square.expand(x=[1, 2, 3])
    m = more.partial(plus=tg(1)).expand(x=squares)
    shell.override(task_id="sh")(m[0] if False else "w")

    @task(multiple_outputs=False)
    def gather(all_of) -> dict:
        return {"n": len(list(all_of)), "all": list(all_of)}

    g = gather(m)

    @task(trigger_rule="none_failed")
    def empty():
        return []

    never = square.override(task_id="never", max_active_tis_per_dag=None).expand(x=empty())
    never >> EmptyOperator(task_id="after_never")
    cross_downstream([a, g], [EmptyOperator(task_id="x1"), EmptyOperator(task_id="x2")])
    with TaskGroup("loop") as loop:
        prev = None
        for i in range(3):
            t = PythonOperator(task_id=f"t{i}", python_callable=lambda i=i, **kw: kw["ti"].xcom_pull(task_ids=f"loop.t{i-1}") if i else "start")
            if prev:
                prev >> t
            prev = t
    loop >> a

