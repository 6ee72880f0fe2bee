#!/usr/bin/env python3
"""Compares what the package makes of templates without Jinja with what Jinja makes of them. It needs jinja2. The last line has how many were right, and how
many wrong."""
from __future__ import annotations

import datetime
import types
from typing import Any, Dict

from backfill_airflow import templates

# Which names, attributes, calls and marks there are; what looks alike and isn't; and what is Python and no Jinja, or the other way round.
TEMPLATES = [
    *("{{ ds }}", "{{ds}}", "a {{ ds }} b {{ ts }}\n", "x\r\n{{ ds }}\r\n", "{{ ds }}{{ ts }}", "#{{ ds }}", "{{\nds\n}}", "{{\tds }}"),
    *("{ds}", "{{{ds}}}", "{{ {ds} }}"),
    *("{{ params.name }}", "{{ params.items }}", "{{ params.deep.a }}", "{{ params.deep.get }}", "{{ params.list }}", "{{ params.nope }}"),
    *("{{ params.keys }}",),
    *("{{ params['name'] }}", "{{ params.get('name') }}", "{{ params.get('q', -1) }}", "{{ params.get('q') }}", "{{ params.list[0] }}"),
    *("{{ params.quote }}", "{{ params.none }}"),
    *("{{ macros.add(ds, -7) }}", "{{ macros.add(ds, days=7) }}", '{{ macros.form(ds, "%d.%m") }}', "{{ macros.form(ds, '%d.%m') }}"),
    *("{{ macros.nope(ds) }}", "{{ macros.add(ds) }}"),
    *("{{ ds | upper }}", "{{ ds|upper }}", "{{ params.list | join(',') }}", "{{ nope }}", "{{ nope.more }}", "{{ nope() }}", "{{ true }}"),
    *("{{ True }}", "{{ none }}", "{{ None }}", "{{ false }}"),
    *("{{ 1 + 1 }}", "{{ 7 }}", "{{ -7 }}", "{{ 0x10 }}", "{{ 1_000 }}", "{{ 1.50 }}", "{{ 1e3 }}", "{{ 007 }}", "{{ 1if ds else 2 }}"),
    *("{{ 10 ** 2 }}", "{{ 7 // 2 }}", "{{ ~ ds }}", "{{ ds ~ ts }}"),
    *("{{ 'a' 'b' }}", "{{ 'a{b}' }}", "{{ '}}' }}", "{{ '{{' }}", "{{ '' }}", "{{ '\\n' }}", "{{ '\\x41' }}", "{{ 'é' }}", "{{ u'x' }}"),
    *("{{ b'x' }}", "{{ r'x' }}", "{{ f'x' }}", "{{ '#' }}", "{{ \"it's\" }}", "{{ '''x''' }}"),
    *("{{ ds }", "{{ }}", "{{}}", "{{ ds, }}", "{{ ds, ts }}", "{{ (ds) }}", "{{ [ds] }}", "{{ {'a': ds} }}", "{{ not ds }}"),
    *("{{ ds is defined }}", "{{ ds == ts }}", "{{ ds and ts }}", "{{ 'x' if ds else 'y' }}"),
    *("{{ ds[:4] }}", "{{ ds[0] }}", "{{ ds.upper() }}", "{{ ds.split('-')[0] }}", "{{ ds.replace('-', '') }}", "{{ ds.__class__ }}"),
    *("{{ ds.__len__() }}", "{{ ti.__class__ }}", "{{ ti._hidden }}", "{{ '%s' % ds }}"),
    *("{{ at.year }}", "{{ at.strftime('%H:%M') }}", "{{ at.isoformat() }}", "{{ at.date() }}", "{{ at }}", "{{ ti.number }}"),
    *("{{ ti.pull('a') }}", "{{ ti.pull(task='a') }}", "{{ ti.pull(*params.list) }}", "{{ ti.pull }}"),
    *("{{ ds -}} x", "x {{- ds }}", "{{+ ds }}", "{{ ds # c\n }}", "{# c #}{{ ds }}", "{% if ds %}y{% endif %}", "{{ ds }}{# c #}"),
    *("{{ lambda: 1 }}", "{{ (ds := 1) }}", "{{ ds; ts }}", "{{ [x for x in ds] }}", "{{ await ds }}"),
    *("{{ class }}", "{{ params.class }}", "{{ params.import }}", "{{ params . name }}", "{{ params.\nname }}", "{{ ds }}\n\n", "\n{{ ds }}"),
    *("{{ self }}", "{{ loop }}", "{{ range(3) }}", "{{ dict(a=1) }}", "{{ lipsum }}"),
]


class Instance:
    number = 3
    _hidden = "hidden"

    def pull(self, task: str = "none", *more: str) -> str:
        return f"pulled {task}"


def scope() -> Dict[str, Any]:
    return {
        "ds": "2024-01-02",
        "ts": "2024-01-02T03:04:00+00:00",
        "at": datetime.datetime(2024, 1, 2, 3, 4),
        "params": {"name": "n", "items": 3, "deep": {"a": 1, "get": "x"}, "list": [1, "b"], "quote": "it's <b>", "none": None, "class": "c"},
        "ti": Instance(),
        "macros": types.SimpleNamespace(add=lambda day, days: f"{day}{days:+}", form=lambda day, how: f"{day} as {how}"),
    }


DAG = types.SimpleNamespace(
    folder=".", template_searchpath=[], template_undefined=None, jinja_environment_kwargs={}, render_template_as_native_obj=False,
    user_defined_filters={}, user_defined_macros={},
)


def outcome(make: Any) -> str:
    try:
        return repr(make())
    except Exception as error:
        return f"an error {type(error).__name__}"


def main() -> None:
    environment = templates.environment(DAG)
    right, wrong, quick = 0, 0, 0
    names = scope()
    for text in TEMPLATES:
        got = outcome(lambda: templates.plain_text(text, names))
        if got == "None":
            continue  # (left to Jinja)
        quick += 1
        wanted = outcome(lambda: environment.from_string(text).render(names))
        if got == wanted:
            right += 1
        else:
            wrong += 1
            print(f"differs: {text!r}: {got} for {wanted}")
    # Most that are usual aren't left to Jinja.
    usual = ("{{ ds }}", "{{ params.name }}", "{{ macros.add(ds, -7) }}", "{{ ti.pull('a') }}", "{{ at.strftime('%H:%M') }}", "a {{ ds }} b {{ ts }}\n")
    for text in usual:
        if templates.plain_text(text, names) is None:
            wrong += 1
            print(f"differs: {text!r} is left to Jinja")
    print(right + len(usual), wrong)


if __name__ == "__main__":
    main()
