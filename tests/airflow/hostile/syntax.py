# status 2
# says refused: hostile/syntax.py:4: the DAG file isn't Python

with DAG("d") as dag
    pass
