"""Tasks that are ended by a signal."""
import os
import subprocess
import time
from datetime import datetime

from airflow import DAG
from airflow.models import BaseOperator
from airflow.operators.bash import BashOperator
from airflow.operators.python import PythonOperator

# A file to which nobody writes. Whoever waits for it is found by its name.
WAITS_FOR = os.environ["WAITS_FOR"]


def sleeps():
    try:
        print("begun", flush=True)
        time.sleep(60)
    finally:
        with open("cleaned", "w") as file:
            file.write("up")


class Runs(BaseOperator):
    def execute(self, context):
        self.process = subprocess.Popen(["tail", "-f", WAITS_FOR])
        print("begun", flush=True)
        self.process.wait()

    def on_kill(self):
        self.process.kill()
        with open("killed", "w") as file:
            file.write("by on_kill")


with DAG("signals", start_date=datetime(2024, 1, 1), schedule="@daily", default_args={"on_failure_callback": lambda context: open("told", "w").write(type(context["exception"]).__name__)}):
    BashOperator(task_id="bash", bash_command=f"tail -f {WAITS_FOR} & echo begun; tail -f {WAITS_FOR}")
    PythonOperator(task_id="python", python_callable=sleeps)
    Runs(task_id="own")
