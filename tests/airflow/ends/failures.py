"""Tasks that fail, each in its own way. Where each does is told by the word WHERE."""
from datetime import datetime

from airflow import DAG
from airflow.decorators import task
from airflow.models import BaseOperator
from airflow.operators.bash import BashOperator
from airflow.operators.python import PythonOperator
from airflow.sensors.python import PythonSensor


def below(number):
    return 1 / number


def calls(**context):
    return below(0)  # WHERE python


class Own(BaseOperator):
    template_fields = ("text",)

    def __init__(self, text="", **kwargs):
        super().__init__(**kwargs)
        self.text = text

    def execute(self, context):
        return below(0)  # WHERE own


with DAG("failures", start_date=datetime(2024, 1, 1), schedule="@daily") as dag:
    PythonOperator(task_id="python", python_callable=calls)
    Own(task_id="own")

    @task
    def flow():
        raise ValueError("no data")  # WHERE flow

    flow()
    PythonSensor(task_id="sensor", python_callable=lambda: below(0))  # WHERE sensor
    PythonOperator(task_id="macro", python_callable=print, op_args=["{{ dag.user_defined_macros['f']() }}"])
    PythonOperator(task_id="wrong_arguments", python_callable=below, op_kwargs={"no": 1})
    BashOperator(task_id="bash", bash_command="echo last words; exit 3")
    PythonOperator(task_id="undefined", python_callable=print, op_args=["{{ nowhere }}"])
    PythonOperator(task_id="exits", python_callable=lambda: exit(3))
    dag.user_defined_macros["f"] = lambda: below(0)  # WHERE macro
