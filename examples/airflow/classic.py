"""Classic operators with Jinja templates, in the manner of Airflow's tutorial."""
import textwrap
from datetime import datetime, timedelta

from airflow import DAG
from airflow.operators.bash import BashOperator
from airflow.operators.python import PythonOperator


def count_words(ti, **context):
    text = ti.xcom_pull(task_ids="templated")
    ti.xcom_push(key="words", value=len(text.split()))
    return context["params"]["greeting"]


with DAG(
    "classic",
    default_args={
        "depends_on_past": False,
        "email": ["airflow@example.com"],
        "email_on_failure": False,
        "retries": 1,
        "retry_delay": timedelta(seconds=1),
    },
    description="A simple tutorial DAG",
    schedule=timedelta(days=1),
    start_date=datetime(2024, 1, 1),
    catchup=False,
    params={"greeting": "hello"},
    tags=["example"],
) as dag:
    print_date = BashOperator(task_id="print_date", bash_command="date -u -d '{{ ds }}' +%A")
    flaky = BashOperator(task_id="flaky", depends_on_past=False, bash_command="test {{ ti.try_number }} = 2 && echo ready", retries=3)
    templated_command = textwrap.dedent(
        """
        {% for i in range(2) %}
        echo "{{ ds }} and {{ macros.ds_add(ds, 7) }}, {{ data_interval_end | ds_nodash }}"
        {% endfor %}
        """
    )
    templated = BashOperator(task_id="templated", bash_command=templated_command)
    count = PythonOperator(task_id="count", python_callable=count_words)
    show = BashOperator(
        task_id="show",
        bash_command="echo {{ params.greeting | upper }}, {{ ti.xcom_pull(task_ids='count', key='words') }} words on a {{ ti.xcom_pull('print_date') }}",
    )

    print_date >> [flaky, templated]
    templated >> count >> show
