"""get_current_context in modules of the folder, which pull and push; and what is printed is no value."""
import logging
import os
import subprocess
import sys
from datetime import datetime

from airflow import DAG
from airflow.decorators import task
from airflow.operators.python import get_current_context
from helpers import steps

log = logging.getLogger("airflow.task")

with DAG("context_of_helpers", start_date=datetime(2024, 1, 1), schedule="@daily", params={"limit": 3}) as dag:

    @task
    def first():
        print("printed")
        sys.stdout.write("written")
        os.write(1, b"written by number\n")
        subprocess.run(["echo", "printed by another"], check=True)
        log.info("logged at %s", get_current_context()["ts"])
        steps.push_rows([1, 2, 3, 4, 5])
        return "value"

    @task(params={"limit": 2})
    def second():
        return steps.pull_rows("first")

    first() >> second()
