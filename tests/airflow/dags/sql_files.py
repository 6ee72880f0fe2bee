"""SQL and scripts in files of their own, with includes, filters and macros of the DAG."""
import os
from datetime import datetime

from airflow.models import DAG, BaseOperator
from airflow.operators.bash import BashOperator


class Query(BaseOperator):
    template_fields = ("sql", "parameters")
    template_ext = (".sql",)
    template_fields_renderers = {"sql": "sql"}

    def __init__(self, *, sql, parameters=None, **kwargs) -> None:
        super().__init__(**kwargs)
        self.sql = sql
        self.parameters = parameters

    def execute(self, context):
        return {"sql": self.sql, "parameters": self.parameters}


with DAG(
    dag_id="sql_files",
    start_date=datetime(2024, 1, 1),
    schedule="@weekly",
    params={"who": "me", "table": "sales"},
    template_searchpath=os.path.join(os.path.dirname(os.path.abspath(__file__)), "sql"),
    user_defined_macros={"columns": ["a", "b"]},
    user_defined_filters={"quoted": lambda names: ", ".join(f'"{name}"' for name in names)},
) as dag:
    report = Query(task_id="report", sql="report.sql", parameters={"day": "{{ ds }}", "deep": [{"n": "{{ params.table | length }}"}]})
    hello = BashOperator(task_id="hello", bash_command="scripts/hello.sh", params={"who": "you"})
    several = Query(task_id="several", sql=["select 1", "query.sql"])
