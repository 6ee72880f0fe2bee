"""Edges by chain with lists, chain_linear, cross_downstream, labels and lists on either side. Each task tells what stands above it."""
from datetime import datetime

from airflow import DAG
from airflow.models.baseoperator import chain, chain_linear, cross_downstream
from airflow.operators.python import PythonOperator
from airflow.utils.edgemodifier import Label


def above(task):
    return "".join(sorted(task.upstream_task_ids))


with DAG("chains", start_date=datetime(2024, 1, 1), schedule="@daily", default_args={"python_callable": above}):
    a, b, c, d, e, f, g, h, i, j, k, l, m, n, o, p = (PythonOperator(task_id=name) for name in "abcdefghijklmnop")
    chain(a, [b, c], [d, e], f)
    chain_linear(f, [g, h], [i, j])
    cross_downstream([i, j], [k, l])
    [k, l] >> Label("both") >> m
    n << [m, k]
    o.set_upstream([n, a])
    n.set_downstream([p], edge_modifier=Label("last"))
