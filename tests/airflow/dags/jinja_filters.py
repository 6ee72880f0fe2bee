"""Templates with filters, loops, conditions, macros, look-ups and arithmetic of dates."""
from datetime import datetime

from airflow import DAG
from airflow.operators.python import PythonOperator


def echo(*words):
    return list(words)


with DAG(
    "jinja_filters",
    start_date=datetime(2024, 1, 1),
    schedule="@daily",
    params={"tables": ["orders", "items"], "limits": {"low": 1, "high": 9}, "on": True},
    user_defined_macros={"fiscal": lambda at: at.year + (at.month > 6), "OFFSET": 3},
    user_defined_filters={"shout": lambda text, times=1: text.upper() + "!" * times},
) as dag:
    first = PythonOperator(task_id="first", python_callable=lambda: {"path": "/in", "rows": [4, 5]})
    PythonOperator(
        task_id="filters",
        python_callable=echo,
        op_args=[
            "{{ ds | replace('-', '/') }}",
            "{{ params.tables | join('+') | shout(2) }}",
            "{{ params.limits | tojson }}",
            "{{ params.limits['high'] - params.limits.low }}",
            "{% for table in params.tables if table != 'items' %}{{ loop.index }}:{{ table }};{% endfor %}",
            "{% if params.on and not dag_run.external_trigger %}on{% else %}off{% endif %}",
            "{# nothing #}{{ fiscal(logical_date) + OFFSET }}",
            "{{ '%05d' | format(42) }}",
            "{{ none | default('d', true) }}{{ undefined_name | default('u') }}",
        ],
    )
    PythonOperator(
        task_id="dates",
        python_callable=echo,
        op_args=[
            "{{ macros.ds_add(ds, -31) }} {{ macros.ds_format(ds, '%Y-%m-%d', '%d.%m.%y') }}",
            "{{ (logical_date - macros.timedelta(hours=1)).strftime('%Y/%m/%d/%H') }}",
            "{{ (execution_date + macros.timedelta(days=1)) | ds }}",
            "{{ data_interval_end.int_timestamp - data_interval_start.int_timestamp }}",
            "{{ ts_nodash }} {{ ts_nodash_with_tz }} {{ logical_date | ts_nodash }}",
            "{{ prev_ds }} {{ next_ds_nodash }} {{ yesterday_ds }} {{ tomorrow_ds_nodash }}",
            "{{ macros.datetime.strptime(ds, '%Y-%m-%d').isocalendar()[1] }}",
            "{{ run_id }} {{ dag.dag_id }} {{ task.task_id }} {{ ti.try_number }} {{ task_instance_key_str }}",
            "{{ data_interval_start.isoformat() }}",
        ],
    )
    first >> PythonOperator(
        task_id="pulls",
        python_callable=lambda path, rows, of_list: [path, rows, of_list],
        op_kwargs={
            "path": "{{ ti.xcom_pull(task_ids='first')['path'] }}",
            "rows": "{{ (task_instance.xcom_pull('first').rows | sum) * 2 }}",
            "of_list": "{{ ti.xcom_pull(task_ids=['first'])[0].rows[1] }}",
        },
    )
