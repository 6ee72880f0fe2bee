"""Native rendering, @dag with parameters of its own, Params, and arguments with types."""
from __future__ import annotations

from datetime import datetime
from typing import Dict

from airflow.decorators import dag, task
from airflow.models.param import Param


@task
def parts(numbers: list[int]) -> Dict[str, int]:
    return {"least": min(numbers), "most": max(numbers)}


@task(multiple_outputs=False)
def whole(parts: dict) -> dict:
    return parts


@dag(
    dag_id="native",
    schedule="@quarterly",
    start_date=datetime(2024, 1, 1),
    render_template_as_native_obj=True,
    params={"numbers": Param([3, 1, 2], type="array"), "when": Param("2024-01-01", type="string", format="date")},
)
def build(url: str = "http://localhost", times=2):
    made = parts("{{ params.numbers }}")

    @task
    def use(least, most, url, when, params=None, kept=None):
        return [least, most, url, when, sorted(params), kept]

    use(made["least"], made["most"], url, when="{{ params.when }}", kept="{{ params.numbers | length * params.times }}")
    whole(made)


build(times=5)
