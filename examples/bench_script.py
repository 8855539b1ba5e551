#!/usr/bin/env python3
"""Writes the script that the mode `bench` makes for itself.

bench_script.py SEED PEOPLE > script

docs/FORMATS.md says how it is drawn: each draw is the last one times 16807 modulo 2147483647, the seed being the
one before the first.
"""
import sys

KINDS = ("friend:{0}", "(apply friend: friend:{0})", "(weak-and (term friend:{0} :optional-hits 2) lives:c1)")


def draws(last):
    while True:
        last = last * 16807 % 2147483647
        yield last


def asks(people):
    for number in range(9):
        person = 1 + number % people
        yield f"ask {person} {1 + number % 4} 100 {KINDS[number % 3].format(person)}"
    yield "go"


def script(seed, people):
    draw = draws(seed)
    yield from ("unicorn 1", "vertical user 4 2", "type friend user user both index")
    yield from ("type lives word user target index", "begin")
    for person in range(1, people + 1):
        yield f"entity user {person} {next(draw) % 1000}"
    for person in range(1, people + 1):
        for _ in range(4):
            yield f"edge friend {person} {1 + next(draw) % people} public"
        place = next(draw) % 10
        yield f"edge lives c{place} {person} {'public' if next(draw) % 4 else 'only'}"
    yield from ("publish", "go")
    yield from asks(people)
    for publish in range(1, 11):
        for person in range(1, people + 1):
            if person % 10 == publish % 10:
                yield f"entity user {person} {next(draw) % 1000}"
        yield from ("publish", "go")
        yield from asks(people)


for line in script(int(sys.argv[1]), int(sys.argv[2])):
    print(line)
