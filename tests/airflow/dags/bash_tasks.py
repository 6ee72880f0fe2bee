"""Tasks of bash: what they push, exit codes that skip, environments, folders, and @task.bash."""
from datetime import datetime

from airflow import DAG
from airflow.decorators import task
from airflow.operators.bash import BashOperator

with DAG("bash_tasks", start_date=datetime(2024, 1, 1), schedule="@daily", params={"name": "world"}) as dag:
    BashOperator(task_id="last_line", bash_command="echo one; echo '  two  '; echo three >&2")
    BashOperator(task_id="nothing", bash_command=":")
    BashOperator(task_id="skips", bash_command="exit 99")
    BashOperator(task_id="skips_otherwise", bash_command="echo kept; exit 12", skip_on_exit_code=[11, 12])
    BashOperator(task_id="fails_then", bash_command="exit 99", skip_on_exit_code=None)
    BashOperator(task_id="pipe", bash_command="false | true; set -o pipefail; echo a | grep -c a")
    BashOperator(task_id="own_environment", bash_command='echo "${HOME-unset} $NAME"', env={"NAME": "{{ params.name }}"})
    BashOperator(task_id="both_environments", bash_command='echo "$OUTSIDE $NAME"', env={"NAME": "n"}, append_env=True)
    BashOperator(task_id="folder", bash_command="pwd", cwd="/usr/bin")
    BashOperator(task_id="made", bash_command="case $PWD in /tmp/airflowtmp*) echo of its own;; esac")
    BashOperator(task_id="number", bash_command="echo 42")
    BashOperator(task_id="json", bash_command="""echo '{"a": [1, null]}'""", output_processor=lambda text: __import__("json").loads(text))
    BashOperator(task_id="context", bash_command="echo $AIRFLOW_CTX_DAG_ID $AIRFLOW_CTX_TASK_ID $AIRFLOW_CTX_EXECUTION_DATE $AIRFLOW_CTX_TRY_NUMBER $AIRFLOW_CTX_DAG_OWNER")

    @task.bash(env={"GREETING": "hello {{ ds }}"}, append_env=True)
    def greet(name, ds_nodash=None):
        return f'echo "$GREETING {name} {ds_nodash} {{{{ params.name }}}}"'

    @task.bash
    def skip_it() -> str:
        return "exit 99"

    greet("you") >> skip_it()
