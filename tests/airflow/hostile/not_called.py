# status 2
# says refused: hostile/not_called.py:
# says : no DAG: the @dag function pipeline is never called
from airflow.decorators import dag


@dag(schedule="@daily")
def pipeline():
    pass
