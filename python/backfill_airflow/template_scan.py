"""From which tasks the templates of a task pull: by Jinja's syntax tree; without jinja2, by that of the quick templates."""

from __future__ import annotations

import ast
import functools
from typing import TYPE_CHECKING, Any, Dict

from .base_operator import BaseOperator
from .known_values import UNKNOWN
from .params import ParamsDict
from .quick_templates import trees_of
from .source_scan import PULL_ARGUMENTS
from .templates import environment, file_text, has_marks

if TYPE_CHECKING:
    from .pulls import Scan

# Variables of a template that are moments, which versions of pendulum write otherwise.
MOMENTS = (
    *("logical_date", "execution_date", "data_interval_start", "data_interval_end"),
    *("next_execution_date", "prev_execution_date"),
)


@functools.lru_cache(maxsize=1)
def _environment_of(dag: Any) -> Any:
    return environment(dag)


class TemplateScan:
    """Looks through the template fields of a task."""

    def __init__(self, scan: Scan) -> None:
        self.scan, self.task, self.dag = scan, scan.task, scan.dag

    def field(self, value: Any, field: str) -> None:
        """Looks through the value of a field, and what lies in it."""
        if isinstance(value, str):
            self._text(value, field)
        elif isinstance(value, dict):
            for each in value.values():
                self.field(each, field)
        elif isinstance(value, (list, tuple, set)):
            for each in value:
                self.field(each, field)
        elif getattr(value, "template_fields", None) and not isinstance(value, (type, BaseOperator)):
            for name in value.template_fields:
                self.field(getattr(value, name, None), name)

    def _text(self, text: str, field: str) -> None:
        ext = next((each for each in self.scan.exts if text.endswith(each)), None)
        if ext is not None:
            found = file_text(self.dag, text)
            if found is None:
                self.scan.refuse(
                    f"{field} ends with {ext}, so it names a template file, and there is no {text} in {self.dag.folder}",
                    "put the file there; or a space at the end of the text, where it is a command and no template (as in Airflow)",
                )
                return
            text = found
        if has_marks(text):
            self._template(text, field)

    def _template(self, text: str, field: str) -> None:
        try:
            import jinja2
        except ImportError:
            self._quick_template(text, field)
            return
        try:
            tree = _environment_of(self.dag).parse(text)
        except jinja2.TemplateSyntaxError as error:
            self.scan.refuse(f"{field} isn't a template that Jinja can read: {error}", "write it as Jinja reads it")
            return
        self._jinja_tree(tree, field)

    def _jinja_tree(self, tree: Any, field: str) -> None:
        from jinja2 import nodes

        for output in tree.find_all(nodes.Output):
            self.scan.printed_moments.update(each.name for each in output.nodes if isinstance(each, nodes.Name) and each.name in MOMENTS)
        for name in tree.find_all(nodes.Name):
            self.scan.variable(name.name, f"{field} uses {name.name}")
        for call in tree.find_all(nodes.Call):
            if isinstance(call.node, nodes.Getattr) and call.node.attr == "xcom_pull":
                given = {keyword.key: keyword.value for keyword in call.kwargs}
                given.update(zip(PULL_ARGUMENTS, call.args))
                self._pull({name: self._jinja_value(each) for name, each in given.items()}, field)

    def _jinja_value(self, node: Any) -> Any:
        """A constant, or an expression over params and the like, which are known before a try."""
        from jinja2 import Template, nodes

        try:
            return node.as_const()
        except nodes.Impossible:
            pass
        known = {"params": ParamsDict({**self.dag.params, **self.task.params}), "dag": self.dag, "task": self.task, **self.dag.user_defined_macros}
        names = {name.name for name in node.find_all(nodes.Name)} | ({node.name} if isinstance(node, nodes.Name) else set())
        if not names <= set(known):
            return UNKNOWN
        env = _environment_of(self.dag)
        try:
            tree = nodes.Template([nodes.Assign(nodes.Name("made", "store", lineno=1), node, lineno=1)], lineno=1)
            tree.set_environment(env)
            module: Any = Template.from_code(env, env.compile(tree), dict(env.globals)).make_module(known)
            return module.made
        except Exception:
            return UNKNOWN

    def _quick_template(self, text: str, field: str) -> None:
        trees = trees_of(text)
        if trees is None or self.dag.render_template_as_native_obj:
            self.scan.refuse(f"{field} has a template that takes jinja2, which isn't installed", "pip install jinja2")
            return
        self.scan.printed_moments.update(tree.id for tree in trees if isinstance(tree, ast.Name) and tree.id in MOMENTS)
        for node in (node for tree in trees for node in ast.walk(tree)):
            if isinstance(node, ast.Name):
                self.scan.variable(node.id, f"{field} uses {node.id}")
            elif isinstance(node, ast.Call) and isinstance(node.func, ast.Attribute) and node.func.attr == "xcom_pull":
                given = {keyword.arg: keyword.value for keyword in node.keywords if keyword.arg}
                given.update(zip(PULL_ARGUMENTS, node.args))
                self._pull({name: each.value if isinstance(each, ast.Constant) else UNKNOWN for name, each in given.items()}, field)

    def _pull(self, values: Dict[str, Any], field: str) -> None:
        self.scan.pull(values, f"{{{{ .. }}}} in {field}", self.task.made_at)
