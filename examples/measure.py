#!/usr/bin/env python3
"""Times publishes and queries of `unicorn serve` over a pipe.

measure.py UNICORN [PEOPLE [REPLICAS [WORKERS [MANY]]]]

The table is that of the mode bench: PEOPLE entities (100000) in four shards of REPLICAS replicas (2), four
friends each and a word. A time is that from a round's last line being written to its answer being read.
Each kind of publish is timed in a service of its own, after the changes were taken in a round before it;
the least and the most of six, before any stack is due to be merged. Queries are asked 500 in a round, for at most 100 hits each: the least of
twelve rounds. With MANY, each of the first 500 people has so many friends more.
"""
import random
import subprocess
import sys
import time


class Service:
    def __init__(self, program, workers):
        words = [program, "serve", "--workers", str(workers)]
        self.process = subprocess.Popen(words, stdin=subprocess.PIPE, stdout=subprocess.PIPE)

    def tell(self, lines):
        self.process.stdin.write("".join(line + "\n" for line in lines).encode())
        self.process.stdin.flush()

    def line(self):
        return self.process.stdout.readline().decode().split()

    def settle(self):
        """Waits until all that was told is taken."""
        self.tell(["stats", "go"])
        stacks = int(self.line()[5])
        for _ in range(stacks):
            self.line()

    def publish(self):
        """Publishes, and gives the seconds that it took."""
        begin = time.perf_counter()
        self.tell(["publish", "go"])
        answer = self.line()
        assert answer[0] == "published", answer
        return time.perf_counter() - begin

    def megabytes(self):
        with open(f"/proc/{self.process.pid}/statm") as pages:
            return int(pages.read().split()[1]) * 4096 / 1e6

    def close(self):
        self.process.stdin.close()
        self.process.wait()


def load(people, replicas, many, draw):
    yield "unicorn 2"
    yield f"vertical user 4 {replicas}"
    yield "type friend user user both index"
    yield "type lives word user target index"
    yield "begin"
    for person in range(1, people + 1):
        yield f"entity user {person} {draw.randrange(1000)}"
    for person in range(1, people + 1):
        if person % 50_000 == 1 or many and person < 500 and person % 100 == 0:
            yield "go"
        for _ in range(4 + (many if person <= 500 else 0)):
            yield f"edge friend {person} {1 + draw.randrange(people)} public"
        shown = "public" if draw.randrange(4) else "only"
        yield f"edge lives c{draw.randrange(10)} {person} {shown}"


def opened(program, people, replicas, workers, many, draw):
    """A service with the table, not yet published."""
    service = Service(program, workers)
    service.tell(load(people, replicas, many, draw))
    service.settle()
    return service


def changes(kind, people, draw, number):
    for _ in range(number):
        person = 1 + draw.randrange(people)
        if kind == "ranks":
            yield f"entity user {person} {draw.randrange(1000)}"
        elif kind == "edges":
            yield f"edge friend {person} {1 + draw.randrange(people)} public"
        else:
            yield f"edge friend {person} {1 + draw.randrange(people)} public until {kind}"


def publishes(program, people, replicas, kind, number):
    draw = random.Random(7)
    service = opened(program, people, replicas, 1, 0, draw)
    first = service.publish()
    held = service.megabytes()
    times = []
    for count in range(6):
        service.tell(changes(count + 2 if kind == "ends" else kind, people, draw, number))
        service.settle()
        times.append(service.publish())
    service.close()
    print(f"{number} {kind}, {replicas} replicas: {min(times) * 1e3:.2f} to {max(times) * 1e3:.2f} ms; "
          f"the first, of all: {first:.3f} s; {held:.0f} MB after it", flush=True)


QUERIES = {
    "a term": "friend:{0}",
    "friends of friends": "(apply friend: friend:{0})",
    "weak-and": "(weak-and (term friend:{0} :optional-hits 2) lives:c1)",
}


def queries(program, people, replicas, workers, many):
    draw = random.Random(7)
    service = opened(program, people, replicas, workers, many, draw)
    service.publish()
    for name, query in QUERIES.items():
        asks = [f"ask {person} 1 100 {query.format(person)}" for person in range(1, 501)] + ["go"]
        best, shown = None, 0
        for _ in range(12):
            begin = time.perf_counter()
            service.tell(asks)
            shown = 0
            for _ in range(500):
                hits = int(service.line()[5])
                shown += hits
                for _ in range(hits):
                    service.process.stdout.readline()
            taken = time.perf_counter() - begin
            best = taken if best is None else min(best, taken)
        print(f"{name}, {workers} workers: {best / 500 * 1e6:.1f} us, {shown / 500:.1f} hits", flush=True)
    service.close()


def main():
    program = sys.argv[1]
    people, replicas, workers, many = (
        int(sys.argv[place]) if len(sys.argv) > place else default
        for place, default in ((2, 100_000), (3, 2), (4, 1), (5, 0))
    )
    queries(program, people, replicas, workers, many)
    for kind, number in (("ranks", 100), ("edges", 100), ("ends", 100), ("ranks", 10_000)):
        publishes(program, people, replicas, kind, number)


main()
