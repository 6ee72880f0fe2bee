#!/usr/bin/env python3
"""What wrong_bodies.sh asks of an edit: `wrong_body.py apply EDIT` applies it to the crate in this folder, where each text behind `old:` has to stand
once in its file as the pairs before left that. `wrong_body.py functions EDIT` names the functions that it would change, where it can tell.
`wrong_body.py verdict SAID STATUS` tells what a check came to that said this and ended so: `refused`, or why it doesn't count, by the rules of
`rt must-fail`. `wrong_body.py together EDIT ..` applies at most ten edits of which each changes the body of another function, and prints each with its
function; `wrong_body.py refused SAID CRATE` reads what it printed, and names those edits whose functions a check of these didn't prove."""
import re
import sys

# What an error says of a text that can't be read, even where it names a function.
UNREAD = r"is not in scope|has no field|is no name|operand is missing|expected the end|cannot continue"
# The last line of a check, and of one of some functions, that proves less than it looked at.
NOT_PROVED = r"logic=not-proved|only=(\d+) proved=(?!\1$)"
# What a proof says where an edit takes away a name that it cites.
LACKS_NAME = r"(\./)?proofs/.*(has no field|is not in scope|has no `|was not admitted)"


# The heads of a function and of an impl, of a trait or of none.
FUNCTION = re.compile(r"^( *)(?:pub(?:\([^)]*\))? )?(?:(?:const|unsafe) )*fn (\w+)", re.M)
IMPL = re.compile(r"^impl(?:<[^>]*>)? (.* for )?(\w+)", re.M)


class Function:
    """The function that a stretch of a file's text ends in: what `rt check --only` takes for it, its path below the crate or the name alone of a
    trait's, and whether all of the stretch is the body of a function with a path."""

    def __init__(self, file, text, start, end):
        functions, impls = list(FUNCTION.finditer(text, 0, end)), list(IMPL.finditer(text, 0, end))
        self.path, self.is_body = None, False
        if functions:
            indent, name = functions[-1].groups()
            of_trait, owner = impls[-1].groups() if indent and impls else (None, None)
            module = [it for it in file[len("src/") : -len(".rt")].split("/") if it != "lib"]
            self.path = name if of_trait else "::".join([*module, *filter(None, [owner]), name])
            before = text[functions[-1].start() : start]
            self.is_body = not of_trait and before.count("{") > before.count("}")


def edited(edit, texts):
    """These texts of files, by their names, and those that an edit changes, and the functions that its pairs lie in."""
    file, old, texts, functions = "", None, dict(texts), []
    for line in edit.splitlines():
        word, text = re.fullmatch(r"(\w+): ?(.*)", line).groups()
        if word == "file":
            file = text
        elif word == "old":
            old = text
        elif word == "new":
            if not file.startswith("src/"):
                sys.exit(f"it can't be applied: {file} isn't code")
            if file not in texts:
                texts[file] = text_of(file)
            whole = texts[file]
            if whole.count(old) != 1:
                sys.exit(f"it can't be applied: the old text stands {whole.count(old)} times in {file}")
            start = whole.index(old)
            functions.append(Function(file, whole, start, start + len(old)))
            texts[file] = whole.replace(old, text)
    if not functions:
        sys.exit("it can't be applied: it has no pair of lines")
    return texts, functions


def text_of(file):
    with open(file, encoding="utf-8", errors="replace") as it:
        return it.read()


def write(texts):
    for file, text in texts.items():
        with open(file, "w", encoding="utf-8") as it:
            it.write(text)


def apply_together(edits):
    texts, taken = {}, set()
    for edit in edits:
        try:
            after, functions = edited(text_of(edit), texts)
        except SystemExit:
            continue
        paths = {it.path for it in functions}
        if all(it.is_body for it in functions) and len(paths) == 1 and not paths & taken and len(taken) < 10:
            texts, taken = after, taken | paths
            print(edit, *paths)
    write(texts)


def is_unread(line):
    at = re.match(r"(?:\./)?(?:src|specs)/\S+?:\d+:\d+: error: (`[^`]*`: )?(.*)", line)
    return bool(at) and (not at[1] or bool(re.search(UNREAD, re.sub(r"`[^`]*`", "", at[2]))))


def verdict_of(said, status):
    lines = said.splitlines()
    if any(map(is_unread, lines)):
        return "the prover can't read the edited text"
    if status == 0:
        return "NOT REFUSED: the crate is still proved with this edit"
    if status != 1 or not any(re.match(NOT_PROVED, line) for line in lines):
        return "the prover came to no verdict"
    told = [line for line in lines if re.match(r"(note: )?\S+:\d+:\d+:", line)]
    told = [line for line in told if ": error" in line or line.startswith("note: ")] or told
    if told and all(re.match(LACKS_NAME, line) for line in told):
        return "refused only because a proof cites a name that it takes away"
    return "refused"


def refused_of(said, crate, edits):
    """Those edits, each with its function, whose function isn't proved for itself, and not only since its proof cites a name that was taken away."""
    lines = said.splitlines()
    if any(map(is_unread, lines)) or not any(re.match(NOT_PROVED, line) for line in lines):
        return
    fallen = dict(re.findall(r"^fn (\S+): (?=not proved|no proof)(.*)", said, re.M))
    for edit, function in edits:
        why = fallen.get(f"{crate}::{function}", "; it calls")
        proof = f"proofs/{function.replace('::', '/')}/"
        is_own = "`search` did not prove" in why or not re.search(r"it calls|it passes|a call of", why)
        if is_own and not any(proof in it and re.match(LACKS_NAME, it) for it in lines):
            yield edit


def main(verb, *words):
    if verb == "apply":
        write(edited(text_of(words[0]), {})[0])
    elif verb == "functions":
        for path in filter(None, (it.path for it in edited(text_of(words[0]), {})[1])):
            print(path)
    elif verb == "together":
        apply_together(words)
    elif verb == "refused":
        for edit in refused_of(text_of(words[0]), words[1], map(str.split, sys.stdin)):
            print(edit)
    else:
        print(verdict_of(text_of(words[0]), int(words[1])))


main(*sys.argv[1:])
