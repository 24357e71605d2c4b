"""examples/producer.py: its logs are accepted, it finds assignments where there are some, and it keeps the limits."""

import itertools
import random
import subprocess
import sys
import tempfile
from pathlib import Path

SHIPPED = {
    "fleet": ["no-assignment", "fleet/model.txt"],
    "split": ["no-assignment", "split/model.txt"],
    "never-below": ["never-below", "never-below/model.txt", "0", "5"],
    "pigeonhole": ["no-assignment", "pigeonhole/model.txt"],
}
MODELS = 80  # generated ones


class Bench:
    def __init__(self, root, command, tally, folder):
        self.examples, self.command, self.tally, self.folder = root / "examples", command, tally, folder

    def produce(self, *arguments):
        words = [sys.executable, str(self.examples / "producer.py"), *map(str, arguments)]
        return subprocess.run(words, cwd=self.examples, capture_output=True, text=True)

    def model(self, words):
        path = self.folder / "model.txt"
        path.write_text(" ".join(map(str, words)) + "\n")
        return path

    def verdict(self, model, log):
        return subprocess.run([self.command, "check", model, "-"], input=log, capture_output=True, text=True, cwd=self.examples).stdout

    def accepted(self, name, model, done, claim):
        """The producer wrote a log, the command accepts it, and its premises rise."""
        trouble = ""
        if done.returncode != 0:
            trouble = f"no log: {done.stderr}"
        elif not self.verdict(model, done.stdout).startswith(f"accepted: {claim}\n"):
            trouble = self.verdict(model, done.stdout)
        elif not premises_rise(done.stdout):
            trouble = "the premises do not rise"
        self.tally.check(name, trouble)

    def no_log(self, name, done, status, says):
        """The producer wrote nothing, and said why."""
        right = done.returncode == status and done.stdout == "" and says in done.stderr
        self.tally.check(name, "" if right else f"exit status {done.returncode}, {done.stdout[:80]!r}, {done.stderr!r}")


def premises_rise(log):
    words = iter([int(word) for line in log.splitlines() for word in line.split("#")[0].split()])
    for kind in words:
        if kind > 2:
            return True
        if kind == 1:
            next(words)
        atoms = [tuple(next(words) for _ in range(3)) for _ in range(next(words))]
        if any(a >= b for a, b in zip(atoms, atoms[1:])):
            return False
        skipped = 3 * next(words)
        for _ in range(skipped):
            next(words)
        for _ in range(next(words) if kind == 2 else 0):
            next(words)
    return False


# ---------------------------------------------------------------- generated models, and what meets them by trying everything


def generated(chance):
    count = chance.randint(1, 5)
    bounds = [(low, low + chance.randint(0, 4)) for low in (chance.randint(-2, 2) for _ in range(count))]
    rows = []
    for kind in (chance.randint(1, 4) for _ in range(chance.randint(1, 5))):
        size = chance.randint(1, 4)
        if kind == 1:
            terms = [word for _ in range(size) for word in (chance.randint(-3, 3), chance.randrange(count))]
            rows.append([1, size, chance.randint(-8, 8), *terms])
        elif kind == 3:
            parts = [(chance.randrange(count), chance.randint(1, 3), chance.randint(0, 3)) for _ in range(size)]
            rows.append([3, size, chance.randint(0, 4), *(word for part in parts for word in part)])
        elif count >= 2:
            variables = chance.sample(range(count), chance.randint(2, count))
            rows.append([kind, len(variables), *variables])
    return bounds, rows


def words_of(bounds, rows):
    return [len(bounds), *(word for pair in bounds for word in pair), len(rows), *(word for row in rows for word in row)]


def meets(values, row):
    kind, size = row[:2]
    if kind == 1:
        return sum(row[3 + 2 * i] * values[row[4 + 2 * i]] for i in range(size)) <= row[2]
    if kind == 3:
        parts = [row[3 + 3 * i:6 + 3 * i] for i in range(size)]
        return all(sum(usage for x, duration, usage in parts if values[x] <= time < values[x] + duration) <= row[2]
                   for time in range(-3, 12))
    named = [values[x] for x in row[2:]]
    if kind == 2:
        return len(set(named)) == size
    position, seen = 0, []
    while position not in seen and 0 <= position < size:
        seen.append(position)
        position = named[position]
    return len(seen) == size and position == 0


def try_generated(bench, seed):
    bounds, rows = generated(random.Random(seed))
    model = bench.model(words_of(bounds, rows))
    ranges = [range(low, high + 1) for low, high in bounds]
    good = [values for values in itertools.product(*ranges) if all(meets(values, row) for row in rows)]
    done = bench.produce("no-assignment", model)
    if not good:
        bench.accepted(f"generated model {seed}", model, done, "no assignment meets every row")
        more = bounds[0][1] + 1  # with no assignment any bound holds, one above the high too
        claim = f"variable 0 is never below {more}"
        bench.accepted(f"bound of {seed}", model, bench.produce("never-below", model, 0, more), claim)
        return False
    bench.no_log(f"generated model {seed}", done, 1, "these values meet every row")
    found = tuple(map(int, done.stderr.split(":")[-1].split()))
    bench.tally.check(f"assignment of {seed}", "" if found in good else f"{found} does not meet every row")
    least = min(values[0] for values in good)
    if least > bounds[0][0]:
        claim = f"variable 0 is never below {least}"
        bench.accepted(f"bound of {seed}", model, bench.produce("never-below", model, 0, least), claim)
    bench.no_log(f"past the bound of {seed}", bench.produce("never-below", model, 0, least + 1), 1, "these values")
    return True


# ---------------------------------------------------------------- models for the limits


def ladder(top):
    """x0 < x1 and x1 <= x0: the bounds climb one by one, so the hints are many."""
    return [2, 0, top, 0, top, 2, 1, 2, -1, 1, 0, -1, 1, 1, 2, 0, 1, 1, -1, 0]


def in_pairs(pigeons):
    """Pigeonhole with an all-different row for each two pigeons: it has to be searched."""
    pairs = list(itertools.combinations(range(pigeons), 2))
    return words_of([(1, pigeons - 1)] * pigeons, [[2, 2, *pair] for pair in pairs])


def many_reasons():
    """Eighteen 0-1 variables, all 0, and a last one: at 0 it fails for the sake of them all, so one fact needs them all.

    Two sums that are not both 0 are each at most the sum of nine variables and 9 times the last. Three pigeons in two
    holes see to it that there is no assignment.
    """
    last, first_sum, second_sum = 18, 19, 20
    rows = [[1, 11, 0, 1, total, -9, last, *(word for x in part for word in (-1, x))]
            for total, part in ((first_sum, range(9)), (second_sum, range(9, 18)))]
    rows.append([1, 2, -1, -1, first_sum, -1, second_sum])
    rows += [[2, 2, *pair] for pair in itertools.combinations((21, 22, 23), 2)]
    return words_of([(0, 1)] * 19 + [(0, 9)] * 2 + [(1, 2)] * 3, rows)


def try_limits(bench):
    none = "no assignment meets every row"
    for name, words in (("a chain past 64 hints", ladder(100)), ("pigeons in pairs", in_pairs(5))):
        model = bench.model(words)
        bench.accepted(name, model, bench.produce("no-assignment", model), none)
    bench.no_log("past 16,384 words", bench.produce("no-assignment", bench.model(ladder(900))), 3, "words, and 16384 is the most")
    bench.no_log("past 16 premises", bench.produce("no-assignment", bench.model(many_reasons())), 3, "premises, and 16 is the most")
    low = bench.model([1, 3, 10, 0])
    bench.no_log("a bound that is declared", bench.produce("never-below", low, 0, 3), 3, "its box would be empty")


def try_pigeonholes(bench):
    model, log = bench.folder / "pigeons.txt", bench.folder / "log.txt"
    for pigeons in (2, 3, 16):
        done = bench.produce("pigeonhole", pigeons, pigeons - 1, model, log)
        done.stdout = log.read_text()
        bench.accepted(f"{pigeons} pigeons", model, done, "no assignment meets every row")
        log.unlink()
    bench.no_log("as many holes", bench.produce("pigeonhole", 4, 4, model, log), 1, "these values")
    bench.no_log("17 pigeons", bench.produce("pigeonhole", 17, 16, model, log), 2, "2 to 16 pigeons")
    bench.tally.check("no log of these", "a log was written" if log.exists() else "")


def try_wrong_use(bench):
    bench.no_log("no command", bench.produce(), 2, "producer.py no-assignment MODEL")
    bench.no_log("a missing file", bench.produce("no-assignment", "none.txt"), 2, "none.txt")
    path = bench.folder / "wrong.txt"
    for text, says in (("1 0 1\n 0x", "wrong.txt:2:2"), ("1 0 1", "ends early"), ("1 0 1 0 0", "after the last row"),
                       ("1 5 1 0", "word 2 is 1"), ("2 0 1 0 1 1 2 2 1 1", "twice"), ("99999999999", "wrong.txt:1:1")):
        path.write_text(text)
        bench.no_log(f"the model {text!r}", bench.produce("no-assignment", path), 2, says)


def run(root, command, tally):
    with tempfile.TemporaryDirectory() as scratch:
        bench = Bench(root, command, tally, Path(scratch))
        for name, arguments in SHIPPED.items():
            done = bench.produce(*arguments)
            shipped = (root / "examples" / name / "log.txt").read_text()
            tally.check(f"{name}/log.txt", "" if done.stdout == shipped else "the producer writes another log")
        solvable = sum(try_generated(bench, seed) for seed in range(MODELS))
        tally.check("both kinds of model", "" if 20 < solvable < MODELS - 20 else f"{solvable} of {MODELS} can be met")
        try_limits(bench)
        try_pigeonholes(bench)
        try_wrong_use(bench)
