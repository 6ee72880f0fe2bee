"""Mapped task groups that no graph can say."""
import pendulum

from airflow.decorators import dag, task, task_group
from airflow.operators.bash import BashOperator
from airflow.operators.empty import EmptyOperator


@task
def plus(n):
    return n + 1


@task.branch
def choose(n):
    return "nothing"


@dag(schedule="@daily", start_date=pendulum.datetime(2024, 1, 1, tz="UTC"))
def groups():
    @task
    def numbers():
        return [1, 2]

    @task_group
    def in_order(n):
        plus.override(task_id="second")(plus.override(task_id="first")(n))  # refused: task in_order.second: an edge from in_order.first within a mapped task group whose number of items isn't known before a run | a literal list for the group; or expand each task of the group: the first over the list, the next over its output

    @task_group
    def with_branch(n):
        choose(n)  # refused: task with_branch.choose: a branch or short circuit in a mapped task group | skip by AirflowSkipException in its tasks

    @task_group
    def none(n):
        plus(n)  # refused: task none.plus: a task group that is mapped over an empty list | leave it away

    @task_group
    def by_id(n):
        plus(n) >> BashOperator(task_id="shell", bash_command="echo {{ ti.xcom_pull(task_ids='by_id.plus') }}")  # refused: task by_id.shell: xcom_pull from by_id.plus, which is in the same mapped task group, takes the values of all map indexes | the value as an argument: what by_id.plus returns, or its .output

    @task_group
    def empty(n):
        EmptyOperator(task_id="nothing", doc_md=str(n))  # refused: task empty.nothing: an expanded EmptyOperator | leave it away

    made = numbers()
    in_order.expand(n=made)
    with_branch.expand(n=[1, 2])
    none.expand(n=[])
    by_id.expand(n=[1, 2])
    empty.expand(n=made)


groups()
