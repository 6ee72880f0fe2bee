"""Variables and connections, which are in the environment as Airflow reads them there: AIRFLOW_VAR_KEY and AIRFLOW_CONN_ID."""

from __future__ import annotations

import os

from .errors import AirflowException, AirflowNotFoundException

TYPE_CHECKING = False
if TYPE_CHECKING:
    from typing import Any, Dict, List, Optional

_REQUIRED: Any = object()


class Variable:
    """airflow.models.Variable."""

    def __init__(self, key: str = "", val: Any = None, **_: Any) -> None:
        self.key, self.val = key, val

    @classmethod
    def get(cls, key: str, default_var: Any = _REQUIRED, deserialize_json: bool = False) -> Any:
        """The text of AIRFLOW_VAR_KEY, or what its JSON stands for. Raises a KeyError where there is neither it nor a default."""
        text = os.environ.get("AIRFLOW_VAR_" + key.upper())
        if text is None:
            if default_var is _REQUIRED:
                raise KeyError(f"Variable {key} does not exist: give it in the environment as AIRFLOW_VAR_{key.upper()}")
            return default_var
        if not deserialize_json:
            return text
        import json

        return json.loads(text)

    @classmethod
    def setdefault(cls, key: str, default: Any, description: Any = None, deserialize_json: bool = False) -> Any:
        """The variable where there is one. Raises an AirflowException where it would have to be written."""
        found = cls.get(key, _REQUIRED if default is None else None, deserialize_json)
        return cls.set(key, default) if found is None else found

    @staticmethod
    def set(key: str, value: Any = None, **_: Any) -> Any:
        raise AirflowException(f"Variable {key!r} can't be written: there is no database of Variables; write a file, or push a value")

    update = delete = set


class Connection:
    """airflow.models.Connection."""

    def __init__(
        self, conn_id: Optional[str] = None, conn_type: Optional[str] = None, description: Optional[str] = None, host: Optional[str] = None,
        login: Optional[str] = None, password: Optional[str] = None, schema: Optional[str] = None, port: Optional[int] = None,
        extra: Any = None, uri: Optional[str] = None,
    ) -> None:
        self.conn_id, self.conn_type, self.description, self.host, self.login = conn_id, conn_type, description, host, login
        self.password, self.schema, self.port = password, schema, port
        self.extra: Optional[str] = extra
        if isinstance(extra, dict):
            import json

            self.extra = json.dumps(extra)
        if uri:
            self._read_uri(uri)

    def _read_uri(self, uri: str) -> None:
        from urllib.parse import parse_qsl, unquote, urlsplit

        kind, _, rest = uri.partition("://")
        self.conn_type = _normal_type(kind)
        # (http://https://example.com is a host with a protocol of its own)
        protocol, found, host_and_more = rest.partition("://")
        parts = urlsplit("//" + (host_and_more if found else rest))
        host = unquote(parts.hostname or "")
        self.host = f"{protocol}://{host}" if found else host
        self.login, self.password, self.port = parts.username, parts.password, parts.port
        self.login = unquote(self.login) if self.login else self.login
        self.password = unquote(self.password) if self.password else self.password
        self.schema = unquote(parts.path[1:])
        if parts.query:
            import json

            query = dict(parse_qsl(parts.query, keep_blank_values=True))
            self.extra = query["__extra__"] if "__extra__" in query else json.dumps(query)

    @property
    def extra_dejson(self) -> Dict[str, Any]:
        """The dict of the JSON in `extra`, empty where it has none."""
        import json

        try:
            found = json.loads(self.extra) if self.extra else {}
        except ValueError:
            return {}
        return found if isinstance(found, dict) else {}

    def get_extra_dejson(self, nested: bool = False) -> Dict[str, Any]:
        return self.extra_dejson

    def get_uri(self) -> str:
        """The connection as the text that AIRFLOW_CONN_ID takes."""
        from urllib.parse import quote, urlencode

        protocol, found, host = (self.host or "").rpartition("://")
        login = "" if self.login is None else quote(self.login, safe="")
        password = "" if self.password is None else ":" + quote(self.password, safe="")
        kind = f"{self.conn_type.lower().replace('_', '-')}:" if self.conn_type else ""
        uri = f"{kind}//{protocol}{found}"
        uri += f"{login}{password}@" if login or password else ""
        uri += quote(host, safe="")
        if self.port:
            uri += f":{self.port}" if host or login or password else f"@:{self.port}"
        uri += f"/{quote(self.schema, safe='')}" if self.schema else ""
        if not self.extra:
            return uri
        flat = all(isinstance(each, str) for each in self.extra_dejson.values()) and bool(self.extra_dejson)
        return uri + ("?" if self.schema else "/?") + urlencode(self.extra_dejson if flat else {"__extra__": self.extra})

    def get_password(self) -> Optional[str]:
        return self.password

    def get_hook(self, **_: Any) -> Any:
        raise AirflowException(f"Connection.get_hook(): the hooks of providers aren't here; make the client of {self.conn_type} from the connection")

    @classmethod
    def get_connection_from_secrets(cls, conn_id: str) -> Connection:
        """The connection of AIRFLOW_CONN_ID, a URI or JSON. Raises AirflowNotFoundException where there is none."""
        text = os.environ.get("AIRFLOW_CONN_" + conn_id.upper())
        if text is None:
            raise AirflowNotFoundException(f"The conn_id `{conn_id}` isn't defined: give it in the environment as AIRFLOW_CONN_{conn_id.upper()}")
        return cls.from_json(text, conn_id) if text.lstrip().startswith("{") else cls(conn_id=conn_id, uri=text)

    @classmethod
    def from_json(cls, value: str, conn_id: Optional[str] = None) -> Connection:
        """The connection of a JSON object, which has the arguments of Connection."""
        import json

        arguments = json.loads(value)
        arguments.pop("conn_id", None)
        port = arguments.pop("port", None)
        kind = arguments.pop("conn_type", None)
        return cls(conn_id=conn_id, conn_type=_normal_type(kind) if kind else None, port=int(port) if port not in (None, "") else None, **arguments)


def _normal_type(kind: str) -> str:
    kind = kind.replace("-", "_")
    return "postgres" if kind == "postgresql" else kind


class BaseHook:
    """airflow.hooks.base.BaseHook: gets connections."""

    def __init__(self, *_: Any, **__: Any) -> None:
        pass

    @classmethod
    def get_connection(cls, conn_id: str) -> Connection:
        return Connection.get_connection_from_secrets(conn_id)

    @classmethod
    def get_connections(cls, conn_id: str) -> List[Connection]:
        return [cls.get_connection(conn_id)]

    @classmethod
    def get_hook(cls, conn_id: str, **_: Any) -> Any:
        return cls.get_connection(conn_id).get_hook()

    def get_conn(self) -> Any:
        raise NotImplementedError

    @property
    def log(self) -> Any:
        import logging

        return logging.getLogger("airflow.hooks")
