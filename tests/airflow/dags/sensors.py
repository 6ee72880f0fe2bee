import os
from datetime import datetime, timedelta

from airflow import DAG
from airflow.decorators import task
from airflow.sensors.base import BaseSensorOperator, PokeReturnValue
from airflow.sensors.bash import BashSensor
from airflow.sensors.filesystem import FileSensor
from airflow.sensors.python import PythonSensor

FOLDER = os.environ.get("SENSOR_FOLDER", "sensors")


class SizeSensor(BaseSensorOperator):
    template_fields = ("path",)

    def __init__(self, *, path, least=1, **kwargs):
        super().__init__(**kwargs)
        self.path, self.least = path, least

    def poke(self, context):
        self.log.info("Poking for %s", self.path)
        return os.path.exists(self.path) and os.path.getsize(self.path) >= self.least


with DAG("sensors", schedule="@daily", start_date=datetime(2024, 1, 1), default_args={"poke_interval": 0.2, "timeout": 1}) as dag:
    wait = FileSensor(task_id="wait", filepath=FOLDER + "/{{ ds }}.txt", mode="reschedule")
    soft = PythonSensor(task_id="soft", python_callable=lambda ds: ds == "2024-01-03", soft_fail=True)
    bash = BashSensor(task_id="bash", bash_command="test -e " + FOLDER + "/{{ ds }}.txt", timeout=timedelta(seconds=1))
    size = SizeSensor(task_id="size", path=FOLDER + "/{{ ds }}.txt", least=2)

    @task.sensor(poke_interval=0.1, timeout=2, mode="poke")
    def value(ds=None) -> PokeReturnValue:
        return PokeReturnValue(is_done=True, xcom_value={"day": ds})

    @task(trigger_rule="all_done")
    def end(v):
        return v

    [wait, soft, bash, size] >> end(value())
