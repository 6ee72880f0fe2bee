"""Two DAGs, of which the line names none, or another."""
# graph --schedule @daily
# graph --dag third
from datetime import datetime

from airflow import DAG

first = DAG("first", start_date=datetime(2024, 1, 1))
second = DAG("second", start_date=datetime(2024, 1, 1))
# refused, FILE 1: 2 DAGs in this file | --dag with one of first, second
# refused, FILE 2: no DAG 'third' in this file | --dag with one of first, second
