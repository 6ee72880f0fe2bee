import os
from datetime import datetime, timedelta

from airflow import DAG
from airflow.models import BaseOperator
from airflow.operators.branch import BaseBranchOperator
from airflow.operators.python import PythonOperator
from airflow.utils.decorators import apply_defaults
from helpers.names import previous

with_hours = timedelta(hours=6)


class CopyOperator(BaseOperator):
    template_fields = ("source", "target")
    template_ext = (".sql",)

    @apply_defaults
    def __init__(self, source, target, bucket="b", *args, **kwargs):
        super().__init__(*args, **kwargs)
        self.source, self.target, self.bucket = source, target, bucket

    def execute(self, context):
        self.log.info("copy %s", self.source)
        context["ti"].xcom_push("rows", len(self.source))
        if self.bucket == "push":
            self.xcom_push(context, key="more", value={"a": 1})
        return [self.source, self.target, self.bucket]


class Choose(BaseBranchOperator):
    def choose_branch(self, context):
        return "group_b" if context["logical_date"].hour == 6 else None


with DAG("custom", start_date=datetime(2024, 1, 1, 0), schedule=with_hours, default_args={"bucket": "push"}, template_searchpath=[os.path.join(os.path.dirname(__file__), "sql")]) as dag:
    copy = CopyOperator(task_id="copy", source="query.sql", target="{{ ts_nodash }}")
    rows = PythonOperator(task_id="rows", python_callable=lambda ti: [ti.xcom_pull(task_ids="copy", key=k) for k in ("rows", "more")] + [previous(ti)])
    from airflow.utils.task_group import TaskGroup

    with TaskGroup("group_b") as g:
        PythonOperator(task_id="one", python_callable=print, op_args=["hello"])
        PythonOperator(task_id="two", python_callable=lambda: None)
    copy >> rows >> Choose(task_id="choose") >> g
