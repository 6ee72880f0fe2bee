"""Names that no graph may have, and options of the line that name no task."""
# graph --pull nobody=a --pull a=nobody
from datetime import datetime

from airflow import DAG
from airflow.operators.bash import BashOperator

with DAG("a dag", start_date=datetime(2024, 1, 1), schedule="@daily"):  # refused: dag_id 'a dag' | 1 to 250 letters, digits, '-', '.' and '_'  # refused: --pull nobody=a: there is no task nobody | an id of this DAG
    BashOperator(task_id="a", bash_command="true")  # refused: task a: --pull a=nobody: there is no task nobody | an id of this DAG
    BashOperator(task_id="größe", bash_command="true")  # refused: task größe: task_id 'größe' | 1 to 250 letters, digits, '-', '.' and '_'
