# status 2
# says refused: hostile/no_dag.py
# says no DAG
import airflow
