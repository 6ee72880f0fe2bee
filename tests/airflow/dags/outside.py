"""Variables and Connections of the environment, in code and in templates."""
from datetime import datetime

from airflow import DAG
from airflow.hooks.base import BaseHook
from airflow.models import Connection, Variable
from airflow.operators.python import PythonOperator


def look():
    config = Variable.get("config", deserialize_json=True)
    shop = BaseHook.get_connection("shop")
    try:
        Variable.get("absent")
        absent = "there"
    except KeyError:
        absent = "not there"
    return [config["tables"], Variable.get("absent", default_var=None), absent, shop.conn_type, shop.login, shop.password, shop.port, shop.schema, shop.extra_dejson]


def by_json(conn):
    files = conn.get("files")
    return [files.conn_type, files.host, files.extra_dejson["path"], conn.get("none", "no"), Connection(uri="mysql://u:p%40@h/db").password]


with DAG("outside", start_date=datetime(2024, 1, 1), schedule="@daily", default_args={"owner": "me"}) as dag:
    PythonOperator(task_id="look", python_callable=look)
    PythonOperator(task_id="by_json", python_callable=by_json)
    PythonOperator(
        task_id="templates",
        python_callable=lambda *words: list(words),
        op_args=["{{ var.json.config.tables[1] }}", "{{ var.value.plain }}", "{{ conn.shop.host }}:{{ conn.shop.port }}", "{{ var.value.get('absent', 'instead') }}", "{{ conn.get('none', 'no') }}"],
    )
