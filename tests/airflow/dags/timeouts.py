"""execution_timeout, and what is called and ended then."""
import time
from datetime import datetime, timedelta

from airflow import DAG
from airflow.decorators import task
from airflow.models import BaseOperator
from airflow.operators.bash import BashOperator


class Stops(BaseOperator):
    def execute(self, context):
        time.sleep(60)

    def on_kill(self):
        with open("killed", "a") as file:
            file.write(f"{self.task_id}\n")


with DAG("timeouts", start_date=datetime(2024, 1, 1), schedule="@daily", default_args={"execution_timeout": timedelta(seconds=0.4)}):

    @task
    def swallows():
        try:
            time.sleep(60)
        except Exception:
            return "not ended"

    @task(execution_timeout=timedelta(minutes=1))
    def quick():
        return "in time"

    Stops(task_id="stops")
    # (what bash starts is ended with it)
    BashOperator(task_id="bash", bash_command="tail -f {{ var.value.waits_for }} & tail -f {{ var.value.waits_for }}; echo")
    swallows() >> quick.override(trigger_rule="all_failed")()
