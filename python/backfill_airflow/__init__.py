"""Runs unmodified DAG files of Apache Airflow 2 by `backfill`, without Airflow. See `python3 -m backfill_airflow --help`."""

__version__ = "0.2.0"
