"""Command lines by tables of options: what they have, their help, and the words for a wrong one."""

from __future__ import annotations

import sys

TYPE_CHECKING = False
if TYPE_CHECKING:
    from typing import Dict, List, Optional, Sequence, Tuple

PROGRAM = "python3 -m backfill_airflow"


class Option:
    """An option: `--name`, what its values are called (None for one that is just there or not), whether it may stand several times, and its help."""

    def __init__(self, name: str, metavar: Optional[str], help: str, is_repeated: bool = False) -> None:
        self.name, self.metavar, self.help, self.is_repeated = name, metavar, help, is_repeated

    @property
    def words(self) -> str:
        return self.name if self.metavar is None else f"{self.name} <{self.metavar}>"


class Wrong(Exception):
    """A wrong command line, in words."""


class Command:
    """A command: its arguments with their help, its options, and examples."""

    def __init__(
        self, name: str, about: str, arguments: Sequence[Tuple[str, str]], options: Sequence[Option], examples: Sequence[str], more: str = ""
    ) -> None:
        self.name, self.about, self.arguments, self.examples, self.more = name, about, arguments, examples, more
        self.options = {option.name: option for option in options}

    @property
    def usage(self) -> str:
        return f"Usage: {PROGRAM} {self.name} [OPTIONS] {' '.join(f'<{name}>' for name, _ in self.arguments)}"

    def help(self) -> str:
        """The text of --help."""
        arguments = [(f"<{name}>", words) for name, words in self.arguments]
        options = [(f"    {option.words}", option.help) for option in self.options.values()] + [("-h, --help", "Print help")]
        texts = [self.about, self.usage, f"Arguments:\n{_columns(arguments)}", f"Options:\n{_columns(options)}"]
        if self.more:
            texts.append(self.more)
        examples = "\n".join(f"  {PROGRAM} {self.name} {example}" for example in self.examples)
        return "\n\n".join([*texts, f"Examples:\n{examples}"])

    def read(self, words: Sequence[str]) -> Given:
        """What a line has. Raises Wrong for another one."""
        given = Given()
        pending = list(words)
        while pending:
            word = pending.pop(0)
            if word.startswith("-") and word != "-":
                self._read_option(word, pending, given)
            elif len(given.arguments) < len(self.arguments):
                given.arguments.append(word)
            else:
                raise Wrong(f"unexpected argument '{word}' found")
        missing = [f"  <{name}>" for name, _ in self.arguments[len(given.arguments) :]]
        if missing:
            raise Wrong("the following required arguments were not provided:\n" + "\n".join(missing))
        return given

    def _read_option(self, word: str, pending: List[str], given: Given) -> None:
        name, equals, value = word.partition("=")
        option = self.options.get(name)
        if option is None or equals and option.metavar is None:
            raise Wrong(f"unexpected argument '{word}' found")
        if option.name in given.values and not option.is_repeated:
            raise Wrong(f"the argument '{option.words}' cannot be used multiple times")
        if option.metavar is not None and not equals:
            if not pending:
                raise Wrong(f"a value is required for '{option.words}' but none was supplied")
            value = pending.pop(0)
        given.values.setdefault(option.name, []).append(value)


class Given:
    """The arguments and the values of options that a line has."""

    def __init__(self) -> None:
        self.arguments: List[str] = []
        self.values: Dict[str, List[str]] = {}

    def one(self, name: str) -> Optional[str]:
        """The value of an option that may stand once, or None."""
        return self.values[name][0] if name in self.values else None

    def all(self, name: str) -> List[str]:
        """The values of an option that may stand several times."""
        return self.values.get(name, [])

    def pairs(self, name: str) -> List[Tuple[str, str]]:
        """Those of the form KEY=VALUE. Raises Wrong for another one."""
        made = []
        for value in self.all(name):
            key, equals, rest = value.partition("=")
            if not key or not equals or not rest:
                raise Wrong(f"invalid value '{value}' for '{name}': it has to have the form KEY=VALUE")
            made.append((key, rest))
        return made


def number_of(text: str, name: str, least: int, most: int) -> int:
    """A whole number between two. Raises Wrong for another text."""
    if not text.isascii() or not text.isdigit() or not least <= int(text) <= most:
        raise Wrong(f"invalid value '{text}' for '{name}': it has to be a whole number from {least:,} to {most:,}")
    return int(text)


def tell_wrong(error: Wrong, usage: str) -> int:
    """Tells what is wrong with a line on standard error. Returns the status."""
    print(f"error: {error}\n\n{usage}\n\nFor more information, try '--help'.", file=sys.stderr)
    return 2


def _columns(rows: Sequence[Tuple[str, str]]) -> str:
    width = max(len(name) for name, _ in rows)
    return "\n".join(f"  {name:<{width}}  {words}" for name, words in rows)
