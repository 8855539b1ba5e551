#!/usr/bin/env python3
"""Tells whether the scripts of the operators ask and answer what the stored run of `unicorn_operators` does.

That run has one table and every operator's query. Here each query has a script of its own: NAME.unicorn is the
table up to there and the query, NAME.answers what is answered. What differs is told, with status 1: another
table, another answer, or a query that only one side has.
"""
import pathlib
import sys

HERE = pathlib.Path(__file__).resolve().parent
RUN = HERE.parent / "crates" / "unicorn_operators"


def asked(lines):
    """The queries of a script: for each the table before it, without other queries, and its line's number."""
    table, queries = [], {}
    for number, line in enumerate(lines, 1):
        if line.startswith("ask "):
            queries[line] = (list(table), number)
        elif line != "go" or table[-1] != "go":
            table.append(line)
    return queries


def published(lines):
    """What the publishes of a script are answered."""
    numbers = [number for number, line in enumerate(lines, 1) if line == "publish"]
    return [f"published {number} {version}" for version, number in enumerate(numbers, 1)]


def replied(answers, number):
    """What a query's line is answered, without its number."""
    for at, line in enumerate(answers):
        words = line.split()
        if words[:2] == ["reply", str(number)]:
            return [words[2:]] + [hit.split() for hit in answers[at + 1:at + 1 + int(words[5])]]
    return []


def read(path):
    return path.read_text().splitlines()


def main():
    run, answers = asked(read(RUN / "stdin")), read(RUN / "stdout")
    bad = []
    for script in sorted(HERE.glob("*.unicorn")):
        lines, told = read(script), read(script.with_suffix(".answers"))
        before = published(lines)
        for query, (table, number) in asked(lines).items():
            stored, at = run.pop(query, ([], 0))
            if table[0] not in ("unicorn 1", "unicorn 2") or table[1:] != stored[1:]:
                bad.append(f"{script.name}: the table before {query!r} is another one")
            reply = replied(told, number)
            if told[:len(before)] != before or len(told) != len(before) + len(reply) or reply != replied(answers, at):
                bad.append(f"{script.stem}.answers: {query!r} is answered otherwise")
    bad += [f"no script asks {query!r}" for query in run]
    print("\n".join(bad) or "the scripts of the operators are those of the stored run")
    return 1 if bad else 0


sys.exit(main())
