"""In the manner of Airflow 1.10: old import paths, provide_context, execution_date, dag=dag."""
from datetime import datetime

from airflow import DAG
from airflow.contrib.sensors.file_sensor import FileSensor
from airflow.operators.bash_operator import BashOperator
from airflow.operators.dummy_operator import DummyOperator
from airflow.operators.python_operator import BranchPythonOperator, PythonOperator
from airflow.sensors.base_sensor_operator import BaseSensorOperator
from airflow.utils.decorators import apply_defaults
from airflow.utils.helpers import chain
from airflow.utils.trigger_rule import TriggerRule

default_args = {
    'owner': 'etl',
    'depends_on_past': False,
    'start_date': datetime(2019, 1, 1),
    'provide_context': True,
}

dag = DAG('classic_1_10', default_args=default_args, schedule_interval='0 4 * * 1-5', catchup=False, max_active_runs=1)


class SecondLook(BaseSensorOperator):
    @apply_defaults
    def __init__(self, wanted=2, *args, **kwargs):
        super(SecondLook, self).__init__(*args, **kwargs)
        self.wanted = wanted
        self.looks = 0

    def poke(self, context):
        self.looks += 1
        return self.looks == self.wanted


def extract(**context):
    context['ti'].xcom_push(key='day', value=context['execution_date'].strftime('%A'))


def transform(ds, **kwargs):
    ti = kwargs['ti']
    return [ds, ti.xcom_pull(key='day', task_ids='extract'), ti.xcom_pull(key=None, task_ids='extract'), ti.xcom_pull(task_ids='extract')]


def choose(**context):
    return 'monday' if context['execution_date'].weekday() == 0 else 'other_day'


look = SecondLook(task_id='look', poke_interval=0.1, dag=dag)
there = FileSensor(task_id='there', filepath='/etc/passwd', dag=dag)
start = PythonOperator(task_id='extract', python_callable=extract, dag=dag)
change = PythonOperator(task_id='transform', python_callable=transform, dag=dag)
branch = BranchPythonOperator(task_id='branch', python_callable=choose, dag=dag)
monday = DummyOperator(task_id='monday', dag=dag)
other = BashOperator(
    task_id='other_day', bash_command='echo {{ execution_date.strftime("%d/%m") }} {{ yesterday_ds_nodash }} {{ next_ds }}', dag=dag
)
join = DummyOperator(task_id='join', trigger_rule=TriggerRule.NONE_FAILED_OR_SKIPPED, dag=dag)

chain(look, start, change, branch, [monday, other], join)
there.set_downstream(start)
