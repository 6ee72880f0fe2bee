"""A DAG that is run when the file is read."""
from datetime import datetime

from airflow import DAG

with DAG("calls_test", start_date=datetime(2024, 1, 1), schedule="@daily") as dag:
    pass
dag.test()  # refused: dag.test() and dag.cli() run the DAG by Airflow | put the call below if __name__ == '__main__':
