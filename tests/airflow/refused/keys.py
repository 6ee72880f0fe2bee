"""Arguments of tasks that a graph can't say."""
from datetime import datetime, timedelta

from airflow.models import DAG
from airflow.operators.bash import BashOperator

with DAG("keys", start_date=datetime(2024, 1, 1), schedule="@daily", fail_stop=True, max_active_runs=5000) as dag:  # refused: max_active_runs=5000 | 1 to 4,096  # refused: fail_stop=True | leave it away, or trigger rules that wait for what is to stop
    BashOperator(task_id="backoff", bash_command="true", retries=3, retry_exponential_backoff=True)  # refused: task backoff: retry_exponential_backoff=True | a fixed retry_delay; or --backoff-inside, by which one try makes the retries itself, with Airflow's growing delays
    BashOperator(task_id="waits", bash_command="true", wait_for_downstream=True)  # refused: task waits: wait_for_downstream=True | depends_on_past=True in the tasks that have to wait
    BashOperator(task_id="user", bash_command="true", run_as_user="etl")  # refused: task user: run_as_user='etl' | run all by that user, or by a launcher with sudo (backfill run --launcher)
    BashOperator(task_id="later", bash_command="true", start_date=datetime(2024, 2, 1))  # refused: task later: a start_date of the task that isn't the DAG's | run the earlier days by a graph without this task
    BashOperator(task_id="earlier", bash_command="true", end_date=datetime(2024, 2, 1))  # refused: task earlier: an end_date of the task that isn't the DAG's | run the later days by a graph without this task
    BashOperator(task_id="rule", bash_command="true", trigger_rule="all_done_setup_success")  # refused: task rule: trigger_rule='all_done_setup_success' | one of all_done, all_failed, all_skipped, all_success, always, none_failed, none_failed_min_one_success, none_skipped, one_done, one_failed, one_success
    BashOperator(task_id="many", bash_command="true", retries=101)  # refused: task many: retries=101 | 0 to 100
    BashOperator(task_id="week", bash_command="true", retries=1, retry_delay=timedelta(days=7))  # refused: task week: retry_delay=datetime.timedelta(days=7) | at most a day
    BashOperator(task_id="script", bash_command="scripts/run.sh")  # refused: task script: bash_command ends with .sh, so it names a template file, and there is no scripts/run.sh in $HERE/refused | put the file there; or a space at the end of the text, where it is a command and no template (as in Airflow)
    BashOperator(task_id="pool", bash_command="true", pool="warehouse")  # refused: task pool: pool 'warehouse', whose size isn't in the DAG file | --pool warehouse=SLOTS
    BashOperator(task_id="blank", bash_command="true", pool="my pool")  # refused: task blank: pool 'my pool': a name of letters, digits, '-', '.' and '_' alone | rename the pool
    BashOperator(task_id="per_run", bash_command="true", max_active_tis_per_dagrun=2)  # refused: task per_run: max_active_tis_per_dagrun | max_active_tis_per_dag, or a pool
    BashOperator(task_id="weight", bash_command="true", priority_weight=-1)  # refused: task weight: priority_weight=-1 | 0 to 1,000,000
    BashOperator(task_id="weight_rule", bash_command="true", weight_rule="sideways")  # refused: task weight_rule: weight_rule=sideways | downstream, upstream or absolute
    BashOperator(task_id="both", bash_command="true", pool="default_pool", pool_slots=2, max_active_tis_per_dag=1)  # refused: task both: max_active_tis_per_dag beside a pool | one of both
