# status 0
import threading
import time
from datetime import datetime

from airflow import DAG
from airflow.operators.empty import EmptyOperator

threading.Thread(target=lambda: time.sleep(3600)).start()
with DAG("threads", start_date=datetime(2024, 1, 1), schedule="@daily"):
    EmptyOperator(task_id="a")
