#!/usr/bin/env python3
"""What must be read to believe a contract: the definitions that it rests on: reading_list.py [NAME | --rest | --rows]

NAME is a root set: `recursion` (what run_backfill comes to), `backfills` (what the program does, without the commands that show, explain and keep
journals), `program` (all of it, and the laws of all crates). It prints the set's definitions by file, each with its lines (without comments, blank
lines and imports), and then the sums. Without a word it prints the sums of each set. `--rest` prints the definitions that no public contract, law or
invariant rests on, by file. `--rows` prints what does not resolve, and what stands in specs/ while nothing public rests on it, or the other way round in
specs/inner/, a line each, and then how many rows were looked at, and how many differ.

A name ends the walk where it is the kit's, and at a type that code declares. The lines of types stand beside those of definitions: fields and variants,
what contracts see of a value and its invariant, and of a trait its ghost relations and what its calls promise. What these name is not walked to.
"""
import collections
import functools
import pathlib
import re
import sys

ROOT = pathlib.Path(__file__).resolve().parents[2]
# (what every `Ended` keeps, run_backfill doesn't say again)
RECURSION = [("bf_exec", "running", "run_backfill"), ("bf_core", "ended", "invariant")]
PROGRAM = [("bf_program", "program", "answer")]
# The crates of the commands that show and explain, and of journals.
LATER = {
    *("bf_views", "bf_grid", "bf_marks", "bf_explain", "bf_why", "bf_roots", "bf_wording", "bf_cells", "bf_page"),
    *("bf_reason", "bf_show", "bf_answers", "bf_times", "bf_journal", "bf_findings", "bf_file"),
}
USE = re.compile(r"(?:(?P<public>(?:unfoldable )?pub )|ghost )?use (?P<module>[\w.'-]+?)(?:\.\{(?P<names>[^{}]*)\}| as (?P<alias>\w+))?;?\s*$")
# What the language has, and what its provers are called.
KEYWORDS = {
    *("record", "where", "let", "in", "do", "elim", "case", "if", "then", "else", "Type", "Prim", "module", "λ", "Unit", "tt", "ℤ", "_"),
    *("abbrev", "pub", "unfoldable", "data", "absurd", "cc", "omega", "coded"),
}
# What binds in a `do`, too.
BIND = "◌>>=◌"
NAME = r"[^\W\d][\w'-]*(?:[≢≡][\w'-]+)*\??"
TOKEN = re.compile(rf"(?<![\w.'])(?:_[\w'-]+|{NAME})(?:\.(?:{NAME}|\d+))*|>>=")
HEADER = re.compile(r"^((?:abbrev |pub |unfoldable |opaque )*(?:record |data )?)([^\s:({]+)(?=\s*[:({])(?=.*:)")
Definition = collections.namedtuple("Definition", "module name kind group lines")


def without_comments(text):
    return [line.rstrip() for line in text.splitlines() if line.strip() and not line.strip().startswith("--")]


def imports_of(lines):
    """The names that `use` lines bring, each to its module and name there; a module, by its alias or its last word, to the module alone."""
    names, public = {}, set()
    for line in lines:
        found = USE.match(line.strip())
        if not found:
            continue
        if found["names"] is None:
            names.setdefault(found["alias"] or found["module"].rpartition(".")[2], (found["module"], None))
            continue
        for part in filter(None, map(str.strip, found["names"].split(","))):
            source, _, alias = part.partition(" as ")
            names[alias or source] = (found["module"], source)
            if found["public"]:
                public.add(alias or source)
    return names, public


class Module:
    """A file of definitions."""

    def __init__(self, path):
        crate, _, *rest = path.relative_to(ROOT / "crates").with_suffix("").parts
        self.crate, self.path = crate, str(path.relative_to(ROOT))
        self.name = ".".join(["Rattle", crate, "specs", *rest])
        lines = without_comments(path.read_text())
        self.imports, self.public = imports_of(lines)
        self.definitions, self.parts = {}, {}
        self.read([line for line in lines if not USE.match(line) and not line.startswith("pub mod ")])

    def read(self, lines):
        """Cuts the lines into definitions: a header begins one, and an equation belongs to the one that it begins with."""
        current, group = None, None
        for line in lines:
            if re.match(r"(abbrev )?mutual$|module _ |infix", line):
                group = line
                continue
            group = group if line.startswith("  ") else None
            line = line[2:] if group else line
            found = None if line.startswith(" ") else HEADER.match(line)
            first = line.split(" ")[0]
            if found and not (first in self.definitions and not found[1]):
                current = found[2]
                self.definitions[current] = Definition(self.name, current, found[1].split(), group or "", [])
            elif first in self.definitions:
                current = first
            self.definitions[current].lines.append(line)
        for one in self.definitions.values():
            if {"record", "data"} & set(one.kind):
                for line in one.lines[1:]:
                    part = re.match(rf"\s+(?:pub )?({NAME}(?: {NAME})*) :", line)
                    for name in part[1].split() if part else []:
                        self.parts.setdefault(name, one)


@functools.cache
def modules():
    found = map(Module, sorted(ROOT.glob("crates/*/specs/**/*.antt")))
    return {module.name: module for module in found}


@functools.cache
def code_of(crate, stem):
    path = ROOT / "crates" / crate / "src" / f"{stem.replace('.', '/')}.rt"
    return path.read_text() if path.exists() else ""


def of_code(module, name):
    """The type of code that a module of declared types speaks of; of constants, the file. None where there is no such."""
    crate, _, _, *path = module.split(".")[1:]
    if path[-1].startswith("The") and path[-1] != "TheConstants":
        path.pop()
    if path[-1] == "TheConstants":
        return ("constants", crate, ".".join(path[:-1])) if code_of(crate, ".".join(path[:-1])) else None
    stem, last = ".".join(path[:-1]), path[-1]
    return ("type", crate, f"{stem}.{last}") if re.search(rf"\b(struct|enum|trait|type) {last}\b", code_of(crate, stem)) else None


def resolve(module, name):
    """What a name of a module is: a Definition, a type of code, or ("kit",). None where it is nothing."""
    crate = module.split(".")[1]
    if not (ROOT / "crates" / crate).is_dir():
        return ("kit", module, name)
    if ".specs.contracts." in module:
        return ("impl", crate, name)
    if ".specs.declared." in module:
        return of_code(module, name)
    there = modules().get(module)
    if there is None:
        return None
    if name in there.definitions:
        return there.definitions[name]
    if name in there.parts:
        return there.parts[name]
    if name in there.public:
        return resolve(*there.imports[name])
    return None


def bound_in(text):
    """The names that binders and patterns of a clause bind. What has a dot is a constructor, and no binder."""
    found = []
    found += re.findall(rf"[({{]\s*((?:{NAME}|_)(?:\s+(?:{NAME}|_[\w']*))*)\s+:\s", text)
    found += re.findall(r"λ ((?:[^.λ]|\.(?=\S))+?)\.(?:\s|$)", text)
    found += re.findall(r"\blet (.*?) =", text)
    found += re.findall(r"(?:[\[|{]|↦)\s*([^\[|↦]*?)\s*↦", text)
    found += re.findall(rf"(?:\bdo|[;{{])?\s*({NAME}|\([^()]*\)) ←", text)
    found += re.findall(rf"^\s+(?:pub )?({NAME}(?: {NAME})*) :", text, re.M)
    if not re.match(HEADER, text) or " = " in text.split(" : ")[0]:
        found.append(re.split(r" =\s", text)[0])
    return {token for part in found for token in TOKEN.findall(part) if "." not in token}


def clauses_of(definition):
    """The header, and each equation: what one binds, another doesn't."""
    parts = [[]]
    for line in definition.lines:
        if not line.startswith(" ") and parts[0]:
            parts.append([])
        parts[-1].append(line)
    return ["\n".join(part) for part in parts]


def is_binder(name, source):
    """Whether a name that a clause binds is a variable of its own, and not the constructor or the type of that name."""
    if source[1] is None:
        return True
    one = resolve(*source)
    return name[0].islower() and isinstance(one, Definition) and one.name == source[1]


def names_in(text, there, bound):
    """The names of a clause that its file's imports, or the file itself, give; and those that nothing gives."""
    text = re.sub(r'"(?:[^"\\]|\\.)*"|\'(?:[^\'\\]|\\.)\'', " ", text)
    bound = bound | bound_in(text)
    text = re.sub(rf"(?m)([{{;]|^ +)\s*{NAME} =(?=\s)", r"\1", text)
    given, unknown = [], []
    for token in TOKEN.findall(text):
        head, *rest = [BIND] if token == ">>=" or token == "do" and BIND in there.definitions | there.imports else token.split(".")
        source = there.imports.get(head, (there.name, head) if head in there.definitions or head in there.parts else None)
        if head in KEYWORDS or head in bound and (source is None or is_binder(head, source)):
            continue
        if source is None:
            unknown.append(head)
        elif source[1]:
            given.append(source)
        elif rest:
            given.append((source[0], rest[0]))
    return given, unknown


@functools.cache
def rests_on(module, name):
    """What a definition names, and the names in it that are nothing."""
    there = modules()[module]
    found, unknown = set(), []
    group = there.definitions[name].group
    texts = [group] if group.startswith("module") else []
    for text in texts + clauses_of(there.definitions[name]):
        given, without = names_in(text, there, bound_in(group) if group else set())
        unknown += without
        for source, part in given:
            if (one := resolve(source, part)) is None:
                unknown.append(f"{source}.{part}")
            else:
                found.add(key_of(one))
    return found, unknown


def key_of(one):
    return ("definition", one.module, one.name) if isinstance(one, Definition) else one


def end_of_head(lines, first, indent):
    """The line behind a function's contract: the one that opens its body, or the one behind a `;`."""
    place = first
    while place < len(lines):
        line = lines[place]
        if line.startswith(f"{indent}{{") or not line.startswith(f"{indent} ") and line.endswith(("{", "}")):
            return place
        behind = next((later for later in lines[place + 1 :] if later.strip()), "")
        if line.endswith(";") and not behind.startswith(f"{indent} "):
            return place + 1
        place += 1
    return place


def heads(text):
    """The functions of a file: name, whether others can call it, and the contract; and what stands outside of functions."""
    found, outside, lines, outer, place = [], [], text.splitlines(), "", 0
    while place < len(lines):
        line = lines[place]
        if re.match(r"(pub |unsafe )*(impl|trait)\b", line):
            outer = line
        elif line == "}":
            outer = ""
        start = re.match(r"(\s*)((?:pub(?:\([a-z]+\))? )?)(?:const |unsafe )*fn (\w+)", line)
        if not start:
            outside.append(line)
            place += 1
            continue
        indent, first = start[1], place
        place = end_of_head(lines, first, indent)
        contract = re.search(r"(?ms)^\s*(requires|ensures)\b.*", "\n".join(lines[first:place]))
        public = start[2] == "pub " or " for " in outer or outer.startswith("pub trait")
        found.append((start[3], public, contract[0] if contract else ""))
        if place < len(lines) and lines[place - 1].endswith(";") and place > first:
            continue
        while place < len(lines) and not lines[place].startswith(f"{indent}}}") and not re.match(rf"{indent}\S.*\}}$", lines[place]):
            place += 1
        place += 1
    return found, "\n".join(outside)


def named_by(text, names):
    """The definitions and types that a contract names, and those of its imports that are nothing."""
    found, unknown = set(), []
    for token in TOKEN.findall(re.sub(r"//.*", "", text)):
        head, *rest = token.split(".")
        module, name = names.get(head, ("", None))
        name = name or "".join(rest[:1])
        if module and name:
            one = resolve(module, name)
            if one is None:
                unknown.append(f"{module}.{name}")
            else:
                found.add(key_of(one))
    return found, unknown


def roots_of(path, chosen):
    text = path.read_text()
    names, _ = imports_of(text.splitlines())
    found, outside = heads(text)
    found += [("invariant", False, line) for line in outside.splitlines() if "ghost invariant = " in line]
    texts = [contract for name, public, contract in found if chosen(name, public)]
    return named_by("\n".join(texts), names)


def function_roots(functions):
    found, unknown = set(), []
    for crate, stem, function in functions:
        path = ROOT / "crates" / crate / "src" / f"{stem}.rt"
        some, without = roots_of(path, lambda name, _, function=function: name == function)
        found |= some
        unknown += without if some else [f"{crate}/{stem}.{function}"]
    return found, unknown


def law_roots():
    each = [roots_of(path, lambda _, public: public) for path in sorted(ROOT.glob("crates/*/src/laws.rt"))]
    return set().union(*(some for some, _ in each)), [name for _, without in each for name in without]


def public_roots():
    """What contracts of public functions name, and what stands outside of functions: invariants, and what traits say. All imports are to be something."""
    found, unknown = set(), []
    for path in sorted(ROOT.glob("crates/*/src/**/*.rt")):
        text = path.read_text()
        names, _ = imports_of(text.splitlines())
        functions, outside = heads(text)
        outside = "\n".join(line for line in outside.splitlines() if not USE.match(line.strip()))
        some, _ = named_by("\n".join([outside, *(contract for _, public, contract in functions if public)]), names)
        found |= some
        unknown += named_by(" ".join(names), names)[1]
        unknown += [line for line in text.splitlines() if line.strip().startswith("ghost use ") and not USE.match(line.strip())]
    return found, unknown


def closure(roots, without=frozenset()):
    found, waiting = set(), list(roots)
    while waiting:
        one = waiting.pop()
        crate = one[1].split(".")[1] if one[0] == "definition" else one[1]
        if one in found or crate in without:
            continue
        found.add(one)
        if one[0] == "definition":
            waiting += rests_on(one[1], one[2])[0]
    return found


def sets():
    laws = law_roots()[0]
    program = function_roots(PROGRAM)[0]
    return {
        "recursion": closure(function_roots(RECURSION)[0]),
        "backfills": closure(program, LATER),
        "program": closure(program | laws),
    }


def lines_of(one):
    return len(modules()[one[1]].definitions[one[2]].lines)


def definitions_of(found):
    return sorted(one for one in found if one[0] == "definition")


def block_at(lines, first):
    """The lines from one on to the brace that ends its block, or to its semicolon."""
    found, depth = [], 0
    for line in lines[first:]:
        found.append(line)
        depth += line.count("{") - line.count("}")
        if depth <= 0 and line.rstrip().endswith(("}", ";")):
            break
    return found


def items_of(lines):
    """The items of a block by their first lines, each with its lines: what is indented as the first of them begins one."""
    found = []
    for line in lines:
        if re.match(r"    \S", line) and not re.match(r"    [})\]]", line) or not found:
            found.append([])
        found[-1].append(line)
    return found


@functools.cache
def type_lines(crate, place):
    """How many lines say what a type is: its declaration, and of `impl Model` what contracts see of it and what it keeps."""
    stem, _, name = place.rpartition(".")
    lines = [line for line in code_of(crate, stem).splitlines() if line.strip() and not line.strip().startswith(("//", "#["))]
    found = []
    for number, line in enumerate(lines):
        if re.match(rf"\s*(pub(\([a-z]+\))? )?(struct|enum|trait|type) {name}\b", line):
            found += [line for item in items_of(block_at(lines, number)) if not item[0].strip().startswith("ghost use ") for line in item]
        elif re.match(rf"impl\b.* Model for {name}\b", line):
            items = items_of(block_at(lines, number)[1:-1])
            found += [line for item in items if re.match(r"\s*ghost (Value|view|invariant) ", item[0]) for line in item]
    return len(found)


def sums(found):
    definitions = definitions_of(found)
    types = [one for one in found if one[0] == "type"]
    of_types = sum(type_lines(crate, place) for _, crate, place in types)
    return f"{len(definitions)} definitions, {sum(map(lines_of, definitions))} lines; {len(types)} types, {of_types} lines of theirs"


def print_by_file(definitions):
    by_file = collections.defaultdict(list)
    for one in definitions:
        by_file[modules()[one[1]].path].append(one)
    for path, those in sorted(by_file.items()):
        print(f"{path}: " + ", ".join(f"{one[2]} {lines_of(one)}" for one in those))


def print_rest():
    """What no public contract rests on, and how the files stand."""
    reached = closure(public_roots()[0])
    rest = [("definition", module.name, name) for module in modules().values() for name in module.definitions]
    rest = [one for one in rest if one not in reached]
    print_by_file(rest)
    unread = {one[1] for one in rest}
    read = {one[1] for one in definitions_of(reached)}
    print(f"{len(rest)} definitions, {sum(map(lines_of, rest))} lines; {len(unread - read)} files hold no other, {len(unread & read)} are mixed")


def misplaced(one, reached):
    """What is wrong with the folder of a definition: specs/ holds what something public rests on, and specs/inner/ what nothing does."""
    is_inner = one[1].split(".")[3] == "inner"
    if is_inner and one in reached:
        return "stands in specs/inner/, and a public contract, law or invariant rests on it"
    if not is_inner and one not in reached:
        return "stands in specs/, and no public contract, law or invariant rests on it"
    return ""


def print_rows():
    """Each root is a row, and each definition: all its names are something. And each definition is one more: it stands in the right folder."""
    definitions = [("definition", module.name, name) for module in modules().values() for name in module.definitions]
    roots = {"run_backfill": function_roots(RECURSION), "answer": function_roots(PROGRAM), "laws": law_roots(), "public contracts": public_roots()}
    reached = closure(roots["public contracts"][0])
    parts = [(name, unknown) for name, (_, unknown) in roots.items()]
    parts += [(f"{modules()[one[1]].path}: {one[2]}", rests_on(one[1], one[2])[1]) for one in definitions]
    rows = [(name, f"nothing is {', '.join(dict.fromkeys(unknown))}" if unknown else "") for name, unknown in parts]
    rows += [(f"{modules()[one[1]].path}: {one[2]}", misplaced(one, reached)) for one in definitions]
    wrong = [f"{name}: {what}" for name, what in rows if what]
    print(*wrong, sep="\n", end="\n" if wrong else "")
    print(len(rows), len(wrong))


def main(words):
    if words == ["--rest"]:
        print_rest()
    elif words == ["--rows"]:
        print_rows()
    elif not words:
        for name, found in sets().items():
            print(f"{name}: {sums(found)}")
    elif len(words) == 1 and words[0] in sets():
        found = sets()[words[0]]
        print_by_file(definitions_of(found))
        print(sums(found))
    else:
        sys.exit(__doc__)


if __name__ == "__main__":
    main(sys.argv[1:])
