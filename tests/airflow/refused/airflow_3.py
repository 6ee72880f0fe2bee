"""Imports of Airflow 3."""
from airflow.sdk import DAG  # refused: airflow.sdk is of Airflow 3, and backfill_airflow knows Airflow 2 | import from airflow, airflow.decorators and airflow.models, as in Airflow 2
