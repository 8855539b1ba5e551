#!/usr/bin/env python3
"""A client of `unicorn serve` over a pipe: loads a small graph, and asks in two sessions while it publishes.

    python3 examples/client.py PATH/TO/unicorn [--workers N]

A round is written whole, with its `go`, and then its answers are read. Each round ends with a line `stats`, whose answer
comes after those of all other lines: once it is whole, so is the round. Lines `tidied` and `untidied` may still follow;
they are passed over at the next read.
"""
import subprocess
import sys

HEADER = """\
unicorn 1
vertical user 2 2
vertical photo 1 1
type friend user user both index
type tagged user photo source index
begin
"""

PEOPLE = {1: "Ada", 2: "Ben", 3: "Cleo", 4: "Dan", 9: "Eve"}
PHOTOS = {101: "a picnic", 102: "a lake"}


class Service:
    """A running service, and the number of the last line that it was sent."""

    def __init__(self, command):
        self.process = subprocess.Popen(command, stdin=subprocess.PIPE, stdout=subprocess.PIPE, text=True)
        self.line = 0
        self.send(HEADER.splitlines())

    def send(self, lines):
        for line in lines:
            self.process.stdin.write(line + "\n")
        self.line += len(lines)

    def read(self):
        line = self.process.stdout.readline()
        if not line:
            raise EOFError(f"the service ended with status {self.process.wait()}")
        return line.rstrip("\n")

    def answer(self):
        """Reads an answer whole: its first line, and as many more as that says."""
        first = self.read()
        words = first.split()
        more = int(words[-1]) if words[0] in ("reply", "stats") else 0
        return words, [self.read() for _ in range(more)]

    def round(self, lines):
        """Sends a round and reads its answers, by the numbers of its lines. A change that is taken has none."""
        first = self.line + 1
        self.send([*lines, "stats", "go"])
        self.process.stdin.flush()
        last, answers = first + len(lines), {}
        while last not in answers:
            words, more = self.answer()
            if words[0] not in ("tidied", "untidied"):
                answers[int(words[1])] = words, more
        return first, answers

    def close(self):
        """No line follows, so the service ends; what it still writes is read."""
        self.process.stdin.close()
        self.process.stdout.read()
        return self.process.wait()


def name(vertical, number):
    names = {"user": PEOPLE, "photo": PHOTOS}[vertical]
    return names.get(int(number), f"{vertical} {number}")


def edge(text):
    """An edge as a person would say it: `friend:1>2` is Ada, a friend of whom is Ben."""
    kind, rest = text.split(":", 1)
    source, target = rest.split(">")
    if kind == "friend":
        return f"{name('user', target)} is a friend of {name('user', source)}"
    return f"{name('user', source)} is tagged in {name('photo', target)}"


def show(question, vertical, answer):
    words, hits = answer
    if words[0] != "reply":
        print(f"  {question}: {' '.join(words)}")
        return
    print(f"  {question}, at version {words[3]}:")
    for hit in hits:
        _, number, _, *lineage = hit.split()
        print(f"    {name(vertical, number)}, since " + ", and ".join(edge(it) for it in lineage))


def main():
    service = Service([sys.argv[1], "serve", *sys.argv[2:]])

    print("Loading a graph.")
    load = [f"entity user {number} {90 - number}" for number in PEOPLE]
    load += [f"entity photo {number} {number}" for number in PHOTOS]
    load += ["edge friend 1 2 public", "edge friend 1 3 public", "edge tagged 2 101 public", "edge tagged 3 102 public", "publish"]
    first, answers = service.round(load)
    print("  " + " ".join(answers[first + len(load) - 1][0]))

    print("Two sessions ask while a change is published; each may see the version before it or the one after.")
    friends, photos = "ask 9 1 10 friend:1", "ask 9 2 10 (apply tagged: friend:1)"
    first, answers = service.round([friends, "edge friend 1 4 public", "edge tagged 4 101 public", "publish", photos])
    show("Eve asks for the friends of Ada", "user", answers[first])
    show("Eve asks for the photos of the friends of Ada", "photo", answers[first + 4])

    print("Afterwards both see the last version.")
    first, answers = service.round([friends, photos])
    show("Eve asks for the friends of Ada", "user", answers[first])
    show("Eve asks for the photos of the friends of Ada", "photo", answers[first + 1])

    print(f"The service ends with status {service.close()}.")


if __name__ == "__main__":
    main()
