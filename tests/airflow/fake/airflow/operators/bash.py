"""A task with the attributes that are compared."""
import datetime

import airflow


class BashOperator:
    is_mapped = is_setup = is_teardown = False

    def __init__(self, *, task_id, bash_command, **keys):
        dag = airflow.DAG.opened[-1]
        given = {**dag.default_args, **keys}
        self.task_id = task_id
        self.upstream_task_ids = set()
        self.retries = given.get("retries", 0) + (airflow.OTHERWISE and task_id == "b")
        self.retry_delay = given.get("retry_delay", datetime.timedelta(seconds=300))
        self.trigger_rule = given.get("trigger_rule", "all_success")
        self.depends_on_past = given.get("depends_on_past", False)
        self.execution_timeout = given.get("execution_timeout")
        self.pool, self.pool_slots = given.get("pool", "default_pool"), given.get("pool_slots", 1)
        self.priority_weight, self.weight_rule = given.get("priority_weight", 1), given.get("weight_rule", "downstream")
        if not (airflow.OTHERWISE and task_id == "d"):
            dag.tasks.append(self)

    def __rshift__(self, other):
        other.upstream_task_ids.add(self.task_id)
        if airflow.OTHERWISE and other.task_id == "c":
            other.upstream_task_ids.add("a")
        return other
