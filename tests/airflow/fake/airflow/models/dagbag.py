"""Executes a DAG file."""
import runpy

import airflow


class DagBag:
    def __init__(self, dag_folder, include_examples, safe_mode):
        self.dags, self.import_errors = {}, {}
        try:
            runpy.run_path(dag_folder)
        except Exception as error:
            self.import_errors[dag_folder] = error
        self.dags.update(airflow.DAG.found)
