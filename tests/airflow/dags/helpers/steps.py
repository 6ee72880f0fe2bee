from airflow.operators.python import get_current_context


def push_rows(rows):
    get_current_context()["ti"].xcom_push(key="rows", value=rows)


def pull_rows(source):
    context = get_current_context()
    return context["ti"].xcom_pull(task_ids=source, key="rows")[: context["params"]["limit"]]
