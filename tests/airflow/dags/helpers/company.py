from airflow.models import BaseOperator
from airflow.sensors.base import BaseSensorOperator


class Rows:
    template_fields = ("day",)

    def __init__(self, day, table):
        self.day, self.table = day, table


class Load(BaseOperator):
    template_fields = ("rows", "database")
    ui_color = "#ffffff"

    def __init__(self, *, rows, database="none", **kwargs):
        super().__init__(**kwargs)
        self.rows, self.database = rows, database
        self.steps = []

    def pre_execute(self, context):
        self.steps.append("before")

    def execute(self, context):
        self.log.info("loading %s", self.rows.table)
        self.steps.append("while")
        return [self.database, self.rows.table, self.rows.day, self.steps, self.dag_id, self.task_type, self.owner]

    def post_execute(self, context, result=None):
        self.steps.append("after")
        result.append(len(result))


class Wait(BaseSensorOperator):
    def poke(self, context):
        context["ti"].xcom_push(key="looked", value=True)
        return context["ti"].task.poke_interval == 0.05
