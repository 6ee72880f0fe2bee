#!/usr/bin/env python3
"""What stands in the fixed pieces of the page that shows a report: page_pieces.py ROOT names | sizes | sum | tags | policy | hashes | makers."""
import base64, hashlib, pathlib, re, sys

root, asked = sys.argv[1:]
sys.path.insert(0, str(pathlib.Path(root) / "tests/oracles"))
import showing  # noqa: E402

pieces = showing.pieces(root)
page = "".join(pieces.values())
texts = list(pieces.values())


def hash_of(text):
    return "'sha256-" + base64.b64encode(hashlib.sha256(text.encode()).digest()).decode() + "'"


def policy():
    return re.search("style-src ([^;]*); script-src ([^;]*);", page)


if asked == "names":
    print(" ".join(pieces))
elif asked == "sizes":
    for name, text in pieces.items():
        print(name, len(text.encode()))
elif asked == "sum":
    print(hashlib.sha256(page.encode()).hexdigest())
elif asked == "tags":
    # the tag that a text stands behind, and the one that it stands before
    for before, behind in zip(texts, texts[1:]):
        print(before[before.rindex("<"):], behind[: behind.index(">") + 1])
elif asked == "policy":
    print(policy()[1], policy()[2])
elif asked == "hashes":
    print(*map(hash_of, re.findall("<style>(.*?)</style>", page, re.S)), *map(hash_of, re.findall("<script>(.*?)</script>", page, re.S)))
elif asked == "makers":
    # what would make elements or code of a text
    print(*re.findall(r"innerHTML|outerHTML|insertAdjacentHTML|document\.write|DOMParser|createContextualFragment|\beval\b|\bFunction\(", page))
