#!/usr/bin/env python3
"""Writes a graph file to standard output: `graph.py TASKS EDGES [BYTES]`.

Tasks t0, t1 and on; each edge leads from one of the tasks just before, so that the graph is deep. With BYTES the
file is padded to that length by words of commands.
"""
import json
import sys

MOST_WORDS = 64
LONGEST_WORD = 4096


def graph(tasks, edges):
    """A graph of so many tasks and distinct edges, as nearly the same number for each task as there can be."""
    upstreams = [[] for _ in range(tasks)]
    left = edges
    step = 1
    while left > 0 and step < tasks:
        for task in range(step, tasks):
            if left == 0:
                break
            upstreams[task].append(f"t{task - step}")
            left -= 1
        step += 1
    if left > 0:
        sys.exit(f"{tasks} tasks have no {edges} edges")
    return {
        "dag_id": "bench",
        "schedule": "@daily",
        "tasks": [{"id": f"t{n}", "upstream": ups} for n, ups in enumerate(upstreams)],
    }


def padded(graph, length):
    """The graph as text of so many bytes."""
    size = len(json.dumps(graph))
    for task in graph["tasks"]:
        words = []
        while size < length and len(words) < MOST_WORDS:
            words.append("w" * min(LONGEST_WORD, length - size))
            size += len(words[-1]) + 4
        task["command"] = words
        if size >= length:
            break
    text = json.dumps(graph)
    while len(text) > length:
        words = next(task["command"] for task in graph["tasks"] if task.get("command"))
        words[0] = words[0][: len(words[0]) - (len(text) - length)]
        text = json.dumps(graph)
    return text + " " * (length - len(text))


def main():
    if len(sys.argv) not in (3, 4):
        sys.exit(__doc__)
    made = graph(int(sys.argv[1]), int(sys.argv[2]))
    print(padded(made, int(sys.argv[3])) if len(sys.argv) == 4 else json.dumps(made), end="")


if __name__ == "__main__":
    main()
