"""Operators that call a function, and those that do nothing."""

from __future__ import annotations

from .errors import AirflowException
from .base_operator import BaseOperator
from .running import call_with_context

TYPE_CHECKING = False
if TYPE_CHECKING:
    from typing import Any, Callable, Sequence


class PythonOperator(BaseOperator):
    """Calls a function."""

    template_fields: Sequence[str] = ("templates_dict", "op_args", "op_kwargs")

    def __init__(
        self, *, python_callable: Callable[..., Any], op_args: Any = None, op_kwargs: Any = None, templates_dict: Any = None,
        templates_exts: Any = None, show_return_value_in_logs: bool = True, provide_context: Any = None, **arguments: Any,
    ) -> None:
        super().__init__(**arguments)
        if not callable(python_callable):
            raise AirflowException("`python_callable` param must be callable")
        self.python_callable = python_callable
        self.op_args, self.op_kwargs, self.templates_dict = op_args or (), op_kwargs or {}, templates_dict
        if templates_exts:
            self.template_ext = templates_exts

    def execute_callable(self, context: Any) -> Any:
        """What the function returns."""
        return call_with_context(self, context)

    def execute(self, context: Any) -> Any:
        return self.execute_callable(context)


class ShortCircuitOperator(PythonOperator):
    """Skips what is below where its function returns something false."""

    operator_kind = "short_circuit"

    def __init__(self, *, ignore_downstream_trigger_rules: bool = True, **arguments: Any) -> None:
        super().__init__(**arguments)
        self.ignore_downstream_trigger_rules = ignore_downstream_trigger_rules

    def execute(self, context: Any) -> Any:
        return bool(super().execute(context))


class EmptyOperator(BaseOperator):
    """Does nothing."""

    def execute(self, context: Any) -> None:
        return None
