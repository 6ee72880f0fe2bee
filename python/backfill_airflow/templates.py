"""The template fields of a task, rendered as Airflow renders them."""

from __future__ import annotations

import os

from .errors import AirflowException
from .moments import DateTime, lacking
from .quick_templates import plain_text, without_marks
from .xcom_arg import ResolveMixin

TYPE_CHECKING = False
if TYPE_CHECKING:
    from typing import Any, Dict, Optional, Sequence, Set

__all__ = ["Renderer", "environment", "file_text", "has_marks", "plain_text"]

MARKS = ("{{", "{%", "{#")


def has_marks(text: str) -> bool:
    """Whether a text is a template."""
    return any(mark in text for mark in MARKS)


def environment(dag: Any) -> Any:
    """Jinja's environment for the templates of a DAG. Raises an AirflowException where jinja2 isn't installed."""
    try:
        import jinja2
    except ImportError:
        raise AirflowException("a template is used, and jinja2 isn't installed: pip install jinja2") from None
    options: Dict[str, Any] = {"extensions": ["jinja2.ext.do"], "cache_size": 0, "undefined": dag.template_undefined or _undefined(jinja2.StrictUndefined)}
    options["loader"] = jinja2.FileSystemLoader([dag.folder, *dag.template_searchpath])
    options.update(dag.jinja_environment_kwargs)
    env: Any
    if dag.render_template_as_native_obj:
        from jinja2.nativetypes import NativeEnvironment

        env = NativeEnvironment(**options)
    else:
        from jinja2.sandbox import SandboxedEnvironment, is_internal_attribute

        env = SandboxedEnvironment(**options)
        # (Airflow's sandbox lets names with one underscore through)
        env.is_safe_attribute = lambda thing, name, value: not is_internal_attribute(thing, name)
    env.filters.update(
        ds=lambda at: at.strftime("%Y-%m-%d"),
        ds_nodash=lambda at: at.strftime("%Y%m%d"),
        ts=lambda at: at.isoformat(),
        ts_nodash=lambda at: at.strftime("%Y%m%dT%H%M%S"),
        ts_nodash_with_tz=lambda at: at.isoformat().replace("-", "").replace(":", ""),
    )
    env.filters.update(dag.user_defined_filters)
    env.globals.update(dag.user_defined_macros)
    return env


def _undefined(strict: Any) -> Any:
    """Jinja's class of undefined values, which says of a moment's method that isn't here what it takes."""

    def init(self: Any, hint: Optional[str] = None, **told: Any) -> None:
        if hint is None and isinstance(told.get("obj"), DateTime):
            hint = lacking(told["name"])
        strict.__init__(self, hint, **told)

    return type("Undefined", (strict,), {"__init__": init, "__slots__": ()})


def file_text(dag: Any, name: str) -> Optional[str]:
    """The text of a template file in the DAG's folder or on its search path, or None where there is none."""
    for folder in (dag.folder, *dag.template_searchpath):
        path = os.path.join(folder, name)
        if os.path.isfile(path):
            with open(path, encoding="utf-8") as file:
                return file.read()
    return None


def _names_file(value: Any, exts: Sequence[str]) -> bool:
    return isinstance(value, str) and value.endswith(tuple(exts))


class Renderer:
    """Renders values of a task for one try."""

    def __init__(self, task: Any, context: Any) -> None:
        self.task, self.context = task, context
        self._env: Any = None

    @property
    def env(self) -> Any:
        if self._env is None:
            self._env = environment(self.task.dag)
        return self._env

    def render_task(self) -> None:
        """Renders the template fields of the task, whose files are read first."""
        self._resolve_files()
        self.task.prepare_template()
        into, kept_keys = getattr(self.task, "unrendered_into", None) or ("", ())
        for field in self.task.template_fields:
            if field in getattr(self.task, "unrendered", ()):
                continue
            value = getattr(self.task, field)
            made = self._render_but(value, set(kept_keys)) if field == into else self.render(value, self.task.template_ext)
            setattr(self.task, field, made)

    def _resolve_files(self) -> None:
        """Puts the texts of template files in the place of their names, so that prepare_template() sees them."""
        exts = self.task.template_ext
        for field in self.task.template_fields if exts else ():
            value: Any = getattr(self.task, field, None)
            if _names_file(value, exts):
                setattr(self.task, field, self._source(value))
            elif isinstance(value, list):
                setattr(self.task, field, [self._source(each) if _names_file(each, exts) else each for each in value])

    def _source(self, name: str) -> str:
        text = file_text(self.task.dag, name)
        if text is None:
            raise AirflowException(f"there is no template file {name} in {', '.join([self.task.dag.folder, *self.task.dag.template_searchpath])}")
        return text

    def _render_but(self, values: Any, kept_keys: Set[str]) -> Any:
        """Renders a dict but for the members that the item of an expanded task gave."""
        return {key: each if key in kept_keys else self.render(each, self.task.template_ext) for key, each in values.items()}

    def render(self, value: Any, exts: Sequence[str] = ()) -> Any:
        """A value with its templates rendered, and what isn't there before a try resolved."""
        if isinstance(value, str):
            return self._render_text(value, exts)
        if isinstance(value, ResolveMixin):
            return value.resolve(self.context)
        if type(value) in (tuple, list, set):
            return type(value)(self.render(each, exts) for each in value)
        if isinstance(value, tuple):
            return type(value)(*(self.render(each, exts) for each in value))
        if isinstance(value, (list, set)):
            return type(value)(self.render(each, exts) for each in value)
        if isinstance(value, dict):
            return {key: self.render(each, exts) for key, each in value.items()}
        if getattr(value, "template_fields", None) and not isinstance(value, type):
            for field in value.template_fields:
                setattr(value, field, self.render(getattr(value, field), exts))
        return value

    def _render_text(self, text: str, exts: Sequence[str]) -> Any:
        dag = self.task.dag
        if _names_file(text, exts):
            return self.env.get_template(text).render(self.context.everything())
        if not dag.render_template_as_native_obj:
            if not has_marks(text):
                return without_marks(text)
            quick = plain_text(text, {**dag.user_defined_macros, **self.context}) if self._env is None else None
            if quick is not None:
                return quick
        return self.env.from_string(text).render(self.context.everything())
