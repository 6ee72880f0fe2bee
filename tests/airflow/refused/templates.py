"""A template that Jinja can't read."""
# needs jinja2
from datetime import datetime

from airflow import DAG
from airflow.operators.bash import BashOperator

with DAG("templates", start_date=datetime(2024, 1, 1), schedule="@daily"):
    BashOperator(task_id="broken", bash_command="echo {{ ds")  # refused: task broken: bash_command isn't a template that Jinja can read: unexpected end of template, expected 'end of print statement'. | write it as Jinja reads it
