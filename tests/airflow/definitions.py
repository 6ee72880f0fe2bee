#!/usr/bin/env python3
"""What a DAG file's definitions come to, by Airflow's rules: edges of groups and of blocks of setups, ids, default arguments, params, and errors. The last
line has how many rows were right, and how many wrong."""
from __future__ import annotations

from datetime import datetime, timedelta
from typing import Any, Callable, Dict, List

from backfill_airflow import standins

standins.install()

from airflow import DAG  # noqa: E402
from airflow.decorators import dag, setup, task, task_group, teardown  # noqa: E402
from airflow.models import BaseOperator  # noqa: E402
from airflow.operators.bash import BashOperator  # noqa: E402
from airflow.operators.empty import EmptyOperator  # noqa: E402
from airflow.operators.python import PythonOperator  # noqa: E402
from airflow.utils.task_group import TaskGroup  # noqa: E402

START = datetime(2024, 1, 1)
right = 0
wrong: List[str] = []


def row(name: str, wanted: Any, got: Any) -> None:
    global right
    if wanted == got:
        right += 1
    else:
        wrong.append(f"{name}: {got!r} for {wanted!r}")


def fails(name: str, words: str, make: Callable[[], Any]) -> None:
    """Requires that a definition raises an error with these words."""
    try:
        made = make()
    except Exception as error:
        row(name, True, words in str(error) or f"{type(error).__name__}: {error}")
    else:
        row(name, "an error", made)


def above(of: Any) -> Dict[str, List[str]]:
    return {each.task_id: sorted(each.upstream_task_ids) for each in of.tasks}


class Base(BaseOperator):
    template_fields = ("source",)

    def __init__(self, source: Any = None, **kwargs: Any) -> None:
        super().__init__(retries=3, **kwargs)
        self.source = source


class Copy(Base):
    template_fields = ("source", "target")

    def __init__(self, *, target: str = "here", bash_command: str = "none", **kwargs: Any) -> None:
        super().__init__(**kwargs)
        self.target, self.command = target, bash_command


def default_arguments() -> None:
    defaults = {"retries": 1, "source": "default", "bash_command": "echo default", "retry_delay": timedelta(seconds=5), "params": {"p": 1}}
    with DAG("defaults", start_date=START, schedule="@daily", default_args=defaults, params={"p": 2, "q": 3}) as made:
        copy = Copy(task_id="copy")
        bash = BashOperator(task_id="bash")
        own = BashOperator(task_id="own", bash_command="echo own", retries=2, default_args={"retries": 4, "pool": "other"})
        empty = EmptyOperator(task_id="empty", retries=None)
        with TaskGroup("group", default_args={"retries": 7}):
            inner = EmptyOperator(task_id="inner")
    row("of a constructor in the middle", [3, "default", "echo default"], [copy.retries, copy.source, copy.command])
    row("of an operator", ["echo default", 1, timedelta(seconds=5)], [bash.bash_command, bash.retries, bash.retry_delay])
    row("of a task", [2, "other"], [own.retries, own.pool])
    row("retries=None", 0, empty.retries)
    row("of a group", 7, inner.retries)
    row("params of default_args", {"p": 1, "q": 3}, dict(made.params))
    unknown = "Invalid arguments were passed to BashOperator"
    fails("an argument that isn't there", unknown, lambda: BashOperator(task_id="q", bash_command="x", nonsense=3, dag=made))
    fails("an argument by place", "keyword", lambda: BashOperator("q", bash_command="x", dag=made))
    fails("no callable", "callable", lambda: PythonOperator(task_id="q", python_callable="x", dag=made))
    fails("an id twice", "has already been added", lambda: EmptyOperator(task_id="empty", dag=made))


def groups() -> None:
    with DAG("groups", start_date=START, schedule="@daily") as made:
        first = EmptyOperator(task_id="first")
        with TaskGroup("g") as group:
            a, b = EmptyOperator(task_id="a"), EmptyOperator(task_id="b")
            with TaskGroup("plain", prefix_group_id=False):
                EmptyOperator(task_id="c")
                with TaskGroup("deep"):
                    EmptyOperator(task_id="d")
            a >> b
        with TaskGroup("nothing") as nothing:
            pass
        last = EmptyOperator(task_id="last")
        first >> group >> last
        last >> nothing
    ups = above(made)
    row("ids", ["first", "g.a", "g.b", "c", "deep.d", "last"], list(ups))
    row("into a group", [["first"], ["g.a"], ["first"], ["first"]], [ups["g.a"], ups["g.b"], ups["c"], ups["deep.d"]])
    row("out of a group", ["c", "deep.d", "g.b"], ups["last"])
    fails("a group twice", "has already been added", lambda: TaskGroup("g", dag=made))


def setups() -> None:
    with DAG("setups", start_date=START, schedule="@daily") as made:

        @setup
        def create() -> int:
            return 1

        @teardown(on_failure_fail_dagrun=True)
        def delete(of: Any) -> None:
            pass

        begun = create()
        work = EmptyOperator(task_id="work")
        ended = delete(begun)
        begun >> work >> ended
        outer, inner = EmptyOperator(task_id="outer").as_setup(), EmptyOperator(task_id="inner").as_setup()
        outer_end, inner_end = EmptyOperator(task_id="outer_end").as_teardown(setups=outer), EmptyOperator(task_id="inner_end").as_teardown(setups=inner)
        with outer >> outer_end:
            EmptyOperator(task_id="one")
            with inner >> inner_end:
                EmptyOperator(task_id="two") >> EmptyOperator(task_id="three")
        with TaskGroup("group") as group:
            up = EmptyOperator(task_id="up").as_setup()
            down = EmptyOperator(task_id="down").as_teardown(setups=up)
            up >> EmptyOperator(task_id="middle") >> down
        group >> EmptyOperator(task_id="behind")
    ups = above(made)
    row("marks", [True, True, True], [begun.operator.is_setup, ended.operator.is_teardown, ended.operator.on_failure_fail_dagrun])
    row("the rule of a teardown", "all_done_setup_success", str(ended.operator.trigger_rule))
    row("a block's roots wait for the setup", [["outer"], ["inner"], ["two"]], [ups["one"], ups["two"], ups["three"]])
    row("an inner setup", ["outer"], ups["inner"])
    row("an inner teardown", ["inner", "three"], ups["inner_end"])
    row("an outer teardown", ["inner_end", "one", "outer"], ups["outer_end"])
    row("out of a group, a teardown is passed over", ["group.middle"], ups["behind"])


def taskflow() -> None:
    @task
    def one() -> int:
        return 1

    @task
    def two(a: Any, b: int = 2) -> Dict[str, int]:
        return {"a": a}

    @dag(schedule="@daily", start_date=START, params={"n": 9})
    def made(n: int = 4, *, path: str = "x") -> None:
        """What it does"""

        @task_group
        def group(v: Any, w: int = 1) -> Any:
            first, second = one.override(task_id="a")(), two.override(task_id="b")(v, w)
            first >> second
            return second

        source = one()
        group.partial(w=2).expand(v=source) >> EmptyOperator(task_id="end")
        one()
        one()
        two(n)
        group(5)

    flow = made(5)
    ups = above(flow)
    row("numbers behind ids", ["one", "group.a", "group.b", "end", "one__1", "one__2", "two", "group__1.a", "group__1.b"], list(ups))
    row("a mapped group", [["one"], ["group.a", "one"], ["group.b"]], [ups["group.a"], ups["group.b"], ups["end"]])
    row("arguments of @dag as params", {"n": 5, "path": "x"}, dict(flow.params))
    row("the doc of the function", "What it does", flow.doc_md)
    row("several outputs by the annotation", [True, False], [flow.task_dict["two"].multiple_outputs, bool(flow.task_dict["one"].multiple_outputs)])
    with DAG("calls", start_date=START, schedule="@daily"):
        fails("an argument that is missing", "missing a required argument", two)
        fails("an argument too many", "too many positional arguments", lambda: one(1))
        fails("expand over nothing", "no arguments to expand against", two.expand)
        fails("expand over a text", "unexpected type", lambda: two.expand(a="text"))
        fails("expand over what isn't there", "unexpected keyword argument", lambda: two.expand(c=[1]))


def main() -> None:
    for each in (default_arguments, groups, setups, taskflow):
        each()
    print("\n".join([*(f"differs: {words}" for words in wrong), f"{right} {len(wrong)}"]))


if __name__ == "__main__":
    main()
