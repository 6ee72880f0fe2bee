from datetime import datetime, timedelta

import airflow
from airflow.operators.bash_operator import BashOperator
from airflow.operators.dummy_operator import DummyOperator
from airflow.operators.python_operator import PythonOperator
from airflow.exceptions import AirflowFailException



def tell(context):
    with open("callbacks", "a") as file:
        file.write(f"{context['ds']} {context['task_instance'].task_id} {type(context['exception']).__name__}\n")


args = {
    "owner": "data", "start_date": datetime(2024, 1, 1), "depends_on_past": True, "retries": 2, "retry_delay": timedelta(seconds=0),
    "execution_timeout": timedelta(seconds=1), "on_failure_callback": tell,
}
dag = airflow.DAG("old_style", default_args=args, schedule_interval="@daily")
first = DummyOperator(task_id="first", dag=dag)
slow = BashOperator(task_id="slow", bash_command="sleep 30", dag=dag, retries=0, depends_on_past=False)


def sometimes(**kwargs):
    if kwargs["ds"] == "2024-01-02":
        raise ValueError("no data")
    return kwargs["ti"].try_number


some = PythonOperator(task_id="some", python_callable=sometimes, provide_context=True, dag=dag)
end = DummyOperator(task_id="end", dag=dag, trigger_rule="all_done", depends_on_past=False)
first.set_downstream(some)
first >> slow
end.set_upstream([some, slow])
