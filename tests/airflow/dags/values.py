"""Values of every kind between tasks, texts that look like something else, and values in lists over which a task is expanded."""
import datetime
from collections import OrderedDict, namedtuple
from decimal import Decimal
from enum import Enum

from airflow import DAG
from airflow.decorators import task

Point = namedtuple("Point", "x y")


class Colour(str, Enum):
    RED = "red"


VALUES = [
    "", "7", "null", "true", "[1]", '{"a": 1}', '"quoted"', " blank ", "two\nlines", "é ☃ \U0001f40d", "-", "NaN",
    0, -1, 2**63, 1.5, 1e300, -0.0, float("inf"), None, True, [], [[]], [None, ["x", 1.5]], {}, {"a": {"b": [1, [2]]}},
    [1, 2], {1, 2}, frozenset(["a"]), Decimal("1.10"), datetime.date(2024, 2, 29), datetime.timedelta(days=1, seconds=2),
    datetime.datetime(2024, 1, 2, 3, 4, 5, 6), datetime.datetime(2024, 1, 2, tzinfo=datetime.timezone.utc), {"__airflow__": "x"},
]
SOME = ["", "7", 1.5, None, [None, ["x", 1.5]], {"a": {"b": [1, [2]]}}, Decimal("1.10")]

with DAG("values", start_date=datetime.datetime(2024, 1, 1), schedule="@daily"):

    @task
    def push_all():
        return VALUES

    @task
    def compare(values):
        different = [repr(one) for one, other in zip(values, VALUES) if type(one) is not type(other) and not isinstance(one, datetime.datetime) or one != other or repr(one) == "-0.0" != repr(other)]
        return [len(values), different]

    @task
    def push_some():
        return SOME

    @task
    def one(value, ti=None):
        other = SOME[ti.map_index]
        assert value == other and type(value) is type(other), (value, other)

    @task
    def loosely():
        return [Point(1, 2), Colour.RED, OrderedDict(b=1, a=2), {1: "one", None: "none", False: "false"}]

    @task
    def seen(values):
        return [list(values[0]), values[1], list(values[2]), values[3]]

    pushed = push_all()
    compare(pushed)
    one.expand(value=push_some())
    seen(loosely())
