"""Params of DAGs and tasks."""

from __future__ import annotations

from .errors import AirflowException, NOTSET, ParamValidationError
from .xcom_arg import ResolveMixin

TYPE_CHECKING = False
if TYPE_CHECKING:
    from typing import Any, Dict, Iterator, Optional


class Param:
    """A param with its default. The schema is kept; Airflow holds defaults to it when it reads the DAG file."""

    def __init__(self, default: Any = NOTSET, description: Optional[str] = None, **schema: Any) -> None:
        self.value = default
        self.description = description
        self.schema = schema

    @property
    def has_value(self) -> bool:
        return self.value is not NOTSET and self.value is not None

    def resolve(self, value: Any = NOTSET, suppress_exception: bool = False) -> Any:
        """The value given, or the default. Raises a ParamValidationError where there is neither."""
        found = self.value if value is NOTSET else value
        if found is NOTSET:
            if suppress_exception:
                return None
            raise ParamValidationError("No value passed and Param has no default value")
        return found

    def dump(self) -> Dict[str, Any]:
        return {"value": None if self.value is NOTSET else self.value, "description": self.description, "schema": self.schema}


class ParamsDict(dict):  # type: ignore[type-arg]  # (a subscript would run at import in Python 3.9, too)
    """The values of params by name. One without a default has no value, and raises where it is asked for."""

    def __init__(self, values: Any = None, suppress_exception: bool = False) -> None:
        super().__init__()
        self._params: Dict[str, Param] = {}
        self.update(values or {})

    def __setitem__(self, key: str, value: Any) -> None:
        param = value if isinstance(value, Param) else Param(value, None)
        self._params[key] = param
        if param.value is NOTSET:
            self.pop(key, None)
        else:
            super().__setitem__(key, param.value)

    def update(self, values: Any = (), **more: Any) -> None:  # type: ignore[override]
        source = values._params if isinstance(values, ParamsDict) else dict(values)
        for key, value in {**source, **more}.items():
            self[key] = value

    def __missing__(self, key: str) -> Any:
        if key in self._params:
            raise ParamValidationError(f"param {key!r} has no default, and a run is given no other value")
        raise KeyError(key)

    def setdefault(self, key: str, default: Any = None) -> Any:
        if key not in self._params:
            self[key] = default
        return self[key]

    def get_param(self, key: str) -> Param:
        """The param itself."""
        return self._params[key]

    def without_value(self) -> Iterator[str]:
        """The names of the params that have no default."""
        return (name for name, param in self._params.items() if param.value is NOTSET)

    def copy(self) -> ParamsDict:
        return ParamsDict(self)

    def dump(self) -> Dict[str, Any]:
        return dict(self)

    def validate(self) -> Dict[str, Any]:
        return dict(self)


class DagParam(ResolveMixin):
    """An argument of a function with @dag, or `dag.param(..)`: a param of the DAG, whose default it gives."""

    def __init__(self, current_dag: Any, name: str, default: Any = NOTSET) -> None:
        self.dag, self.name = current_dag, name
        if default is not NOTSET:
            current_dag.params[name] = default
        self._default = default.value if isinstance(default, Param) else default

    def resolve(self, context: Any) -> Any:
        """The value of the param in a run."""
        if self._default is not NOTSET:
            return self._default
        params = context["params"] if context and "params" in context else self.dag.params
        if self.name not in params:
            raise AirflowException(f"No value could be resolved for parameter {self.name}")
        return params[self.name]
