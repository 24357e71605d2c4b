#!/usr/bin/env python3
"""Writes logs that the checker accepts. Every rule that it uses stands in docs/FORMAT.md.

  producer.py no-assignment MODEL                 the log goes to standard output
  producer.py never-below MODEL VARIABLE VALUE    the log goes to standard output
  producer.py pigeonhole PIGEONS HOLES MODEL LOG  both files are written

Exit status 0: a log was written. 1: there is none to write, since an assignment was found.
2: wrong usage or a bad model. 3: a limit of the format or of this program was reached.

How it searches. A node of the search knows a box: a low and a high for each variable. It looks for a row
that conflicts; else for a value at the end of a variable's range that a row shuts out, and cuts it off;
else it splits a variable's range, refutes the lower half by itself, and goes on with the upper half. What
was cut off stands on the node's trail, each cut with the fact that gave it. Once a row conflicts, one
deduction says for the whole node that its bounds cannot be; its hints are the facts of the trail.
"""

import re
import sys
from collections import namedtuple

AT_MOST, AT_LEAST, EQUAL = 1, 2, 3
SMALLEST, LARGEST = -100_000, 100_000
MOST_PREMISES, MOST_HINTS, MOST_WORDS = 16, 64, 16_384
MOST_TRIED = 20_000  # steps, needed or not, before the search gives up


class BadInput(Exception):
    """A file or an argument that cannot be used."""


class OverLimit(Exception):
    """The log would break a limit of the format."""


class Assignment(Exception):
    """Every row is met by these values, so there is nothing to show."""

    def __init__(self, values):
        super().__init__("assignment")
        self.values = values


# ---------------------------------------------------------------- atoms, facts and boxes
# An atom is (variable, relation, value): tuples sort by variable, then relation, then value, as premises should.
# The search uses "at most" and "at least" alone; "equal" appears when a fact is written.

Fact = namedtuple("Fact", "number premises consequent")  # consequent None: false


def negated(atom):
    variable, relation, value = atom
    return (variable, AT_LEAST, value + 1) if relation == AT_MOST else (variable, AT_MOST, value - 1)


class Box:
    """A range of values for each variable."""

    def __init__(self, bounds):
        self.bounds = list(bounds)

    def copy(self):
        return Box(self.bounds)

    def low(self, variable):
        return self.bounds[variable][0]

    def high(self, variable):
        return self.bounds[variable][1]

    def narrow(self, atom):
        variable, relation, value = atom
        low, high = self.bounds[variable]
        self.bounds[variable] = (low, min(high, value)) if relation == AT_MOST else (max(low, value), high)

    def narrowed(self, *atoms):
        box = self.copy()
        for atom in atoms:
            box.narrow(atom)
        return box

    def holds(self, atom):
        """Whether the atom is true of every value left."""
        variable, relation, value = atom
        return self.high(variable) <= value if relation == AT_MOST else self.low(variable) >= value

    def open_variables(self):
        return [x for x, (low, high) in enumerate(self.bounds) if low < high]

    def atoms(self, variables):
        """Both bounds of each of these variables."""
        return [atom for x in variables for atom in ((x, AT_MOST, self.high(x)), (x, AT_LEAST, self.low(x)))]


# ---------------------------------------------------------------- the four kinds of row
# conflicts(box, mentioned) is the test of docs/FORMAT.md, for a box without holes.
# suspects(box) are the variables whose bounds make the row conflict, or nothing.


class Linear:
    def __init__(self, bound, terms):
        self.bound, self.terms = bound, terms
        self.variables = sorted({x for _, x in terms})

    def conflicts(self, box, mentioned):
        return sum(c * (box.low(x) if c >= 0 else box.high(x)) for c, x in self.terms) > self.bound

    def suspects(self, box):
        return self.variables if self.conflicts(box, ()) else []


class AllDifferent:
    def __init__(self, variables):
        self.variables = variables

    def conflicts(self, box, mentioned):
        """Only the variables that the fact mentions take part."""
        taking_part = [x for x in self.variables if x in mentioned]
        values, end = 0, None
        for low, high in sorted(box.bounds[x] for x in taking_part):
            first = low if end is None else max(low, end + 1)
            if first <= high:
                values, end = values + high - first + 1, high
        return values < len(taking_part)

    def suspects(self, box):
        """Variables that share a range with fewer values than there are variables."""
        for low in {box.low(x) for x in self.variables}:
            for high in {box.high(x) for x in self.variables}:
                inside = [x for x in self.variables if low <= box.low(x) and box.high(x) <= high]
                if len(inside) > max(high - low + 1, 0):
                    return inside
        return []


class Cumulative:
    def __init__(self, capacity, activities):
        self.capacity, self.activities = capacity, activities
        self.variables = sorted({x for x, _, _ in activities})

    def conflicts(self, box, mentioned):
        """Some activity cannot be placed. This test alone finds all that the two tests of the page find."""
        return any(self.shut_out(box, i) for i in range(len(self.activities)))

    def shut_out(self, box, i):
        variable, duration, usage = self.activities[i]
        room = self.capacity - usage
        if room < 0:
            return True
        sure = [(box.high(x), box.low(x) + d, u)
                for j, (x, d, u) in enumerate(self.activities) if j != i and box.high(x) < box.low(x) + d]
        edges = sorted({t for first, end, _ in sure for t in (first, end)})
        full = [(a, b) for a, b in zip(edges, edges[1:])
                if sum(u for first, end, u in sure if first <= a < end) > room]
        start = box.low(variable)  # the first start that has not been shut out yet
        for a, b in full:
            if a - duration < start < b:
                start = b
        return start > box.high(variable)

    def suspects(self, box):
        return self.variables if self.conflicts(box, ()) else []


class Circuit:
    def __init__(self, variables):
        self.variables = variables

    def conflicts(self, box, mentioned):
        """From some position not every position can be reached: what can be reached is a trap."""
        return any(len(self.reached(box, i)) < len(self.variables) for i in range(len(self.variables)))

    def reached(self, box, position):
        seen, todo = {position}, [position]
        while todo:
            low, high = box.bounds[self.variables[todo.pop()]]
            for to in range(max(low, 0), min(high, len(self.variables) - 1) + 1):
                if to not in seen:
                    seen.add(to)
                    todo.append(to)
        return seen

    def suspects(self, box):
        return self.variables if self.conflicts(box, ()) else []


# ---------------------------------------------------------------- reading a model


def read_words(path):
    """The words of a text file: decimal, white space between, # starts a comment."""
    try:
        with open(path, encoding="utf-8", newline="") as file:
            lines = file.read().split("\n")
    except (OSError, UnicodeDecodeError) as trouble:
        raise BadInput(f"{path}: {trouble}") from trouble
    words = []
    for number, line in enumerate(lines, 1):
        for found in re.finditer(r"[^ \t]+", line.removesuffix("\r").split("#")[0]):
            if not re.fullmatch(r"-?[0-9]+", found[0], re.ASCII) or not -2**31 <= int(found[0]) < 2**31:
                raise BadInput(f"{path}:{number}:{found.start() + 1}: no word: {found[0]}")
            words.append(int(found[0]))
    return words


class Model:
    def __init__(self, path):
        self.path, self.words, self.at = path, read_words(path), 0
        count = self.word(1, 64)
        bounds = []
        for _ in range(count):
            low = self.word(SMALLEST, LARGEST)
            bounds.append((low, self.word(low, LARGEST)))
        self.declared = Box(bounds)
        self.rows = [self.row() for _ in range(self.word(0, 64))]
        if self.at < len(self.words):
            raise BadInput(f"{path}: word {self.at} comes after the last row")

    def word(self, least, most):
        if self.at == len(self.words):
            raise BadInput(f"{self.path}: the model ends early, after {self.at} words")
        word = self.words[self.at]
        if not least <= word <= most:
            raise BadInput(f"{self.path}: word {self.at} is {word}, and should be {least} to {most}")
        self.at += 1
        return word

    def variable(self):
        return self.word(0, len(self.declared.bounds) - 1)

    def row(self):
        kind = self.word(1, 4)
        size = self.word(2 if kind in (2, 4) else 1, 16)
        if kind == 1:
            bound = self.word(-2**31, 2**31 - 1)
            return Linear(bound, [(self.word(-10**6, 10**6), self.variable()) for _ in range(size)])
        if kind == 3:
            capacity = self.word(0, 10**6)
            return Cumulative(capacity, [(self.variable(), self.word(1, 10_000), self.word(0, 10**6)) for _ in range(size)])
        variables = [self.variable() for _ in range(size)]
        if len(set(variables)) < size:
            raise BadInput(f"{self.path}: a row names a variable twice, before word {self.at}")
        return AllDifferent(variables) if kind == 2 else Circuit(variables)


# ---------------------------------------------------------------- writing a log

RELATION = {AT_MOST: "<=", AT_LEAST: ">=", EQUAL: "="}


def as_written(atoms):
    """Sorted, without repetition, and with "equal" where "at least" and "at most" meet."""
    written = set(atoms)
    for x, relation, value in list(written):
        if relation == AT_MOST and (x, AT_LEAST, value) in written:
            written -= {(x, AT_MOST, value), (x, AT_LEAST, value)}
            written.add((x, EQUAL, value))
    return sorted(written)


def in_words(atom):
    variable, relation, value = atom
    return f"x{variable} {RELATION[relation]} {value}"


class Log:
    """Steps as they come. Those that the conclusion does not need are left out at the end."""

    def __init__(self):
        self.steps = []  # (words before the fact, fact, hints or None, what the comment begins with)

    def add(self, head, premises, consequent, hints, origin):
        if len(as_written(premises)) > MOST_PREMISES:
            raise OverLimit(f"a fact needs {len(as_written(premises))} premises, and {MOST_PREMISES} is the most")
        if hints is not None and len(hints) > MOST_HINTS:
            raise OverLimit(f"a deduction needs {len(hints)} hints, and {MOST_HINTS} is the most")
        if len(self.steps) == MOST_TRIED:
            raise OverLimit(f"{MOST_TRIED} steps were not enough: the search was given up")
        fact = Fact(len(self.steps), tuple(premises), consequent)
        self.steps.append((head, fact, hints, origin))
        return fact

    def inference(self, row, premises, consequent):
        return self.add([1, row], premises, consequent, None, f"from row {row}")

    def deduction(self, premises, consequent, hints):
        return self.add([2], premises, consequent, [hint.number for hint in hints], "from facts")

    def needed(self, last):
        """The numbers of the steps that step `last` rests on, and its own."""
        found, todo = {last}, [last]
        while todo:
            for hint in self.steps[todo.pop()][2] or []:
                if hint not in found:
                    found.add(hint)
                    todo.append(hint)
        return sorted(found)

    def text(self, last, conclusion, claim):
        """The log that ends in `conclusion`, a list of words to which the number of fact `last` is added."""
        numbers, lines, count = {}, [], 0
        for old in self.needed(last.number):
            head, fact, hints, origin = self.steps[old]
            new = numbers[old] = len(numbers)
            premises, consequents = as_written(fact.premises), [fact.consequent] if fact.consequent else []
            parts = [head, [len(premises)], *premises, [len(consequents)], *consequents]
            if hints is not None:
                cited = [numbers[hint] for hint in hints]
                parts += [[len(cited)], cited] if cited else [[0]]
                origin = "from facts " + ", ".join(map(str, cited))
            says = " and ".join(map(in_words, premises)) or "always"
            then = in_words(fact.consequent) if fact.consequent else "false"
            lines.append(f"# step {new}, {origin}: {says} gives {then}")
            lines.append("  ".join(" ".join(map(str, part)) for part in parts))
            count += sum(len(part) for part in parts)
        ending = conclusion + [numbers[last.number]]
        lines.append(f"# step {len(numbers)}, from fact {numbers[last.number]}: {claim}")
        lines.append(" ".join(map(str, ending)))
        count += len(ending)
        if count > MOST_WORDS:
            raise OverLimit(f"the log needs {count} words, and {MOST_WORDS} is the most")
        return "\n".join([f"# {claim}: {len(numbers) + 1} steps, {count} words", *lines]) + "\n"


# ---------------------------------------------------------------- the search


class Search:
    def __init__(self, model):
        self.declared, self.rows, self.log = model.declared, model.rows, Log()

    def explained(self, row, box, supposed=()):
        """Few bounds of the box that, with the atoms supposed, still make the row conflict; None if they are too many."""
        bounds = [atom for atom in box.atoms(row.suspects(box)) if atom not in supposed]
        bounds.sort(key=self.declared.holds)  # what is declared anyway is dropped last: it may be there to mention a variable

        def conflicts(atoms):
            return row.conflicts(self.declared.narrowed(*atoms), {atom[0] for atom in atoms})

        for atom in list(bounds):
            fewer = [other for other in bounds if other != atom]
            if conflicts([*fewer, *supposed]):
                bounds = fewer
        return bounds if len(as_written(bounds)) <= MOST_PREMISES else None

    def conflict(self, box):
        """A fact that gives false in this box, from one row."""
        for number, row in enumerate(self.rows):
            if row.suspects(box):
                premises = self.explained(row, box)
                if premises is not None:
                    return self.log.inference(number, premises, None)
        return None

    def cut(self, box):
        """A fact that takes values from an end of a variable's range, from one row."""
        for number, row in enumerate(self.rows):
            for variable in row.variables:
                for atom in self.shut_ends(row, box, variable):
                    premises = self.explained(row, box.narrowed(atom), (atom,))
                    if premises is not None:
                        return self.log.inference(number, premises, negated(atom))
        return None

    def shut_ends(self, row, box, variable):
        """The largest lower part and the largest upper part of the variable's range that the row shuts out."""
        low, high = box.bounds[variable]
        for relation, nearest, farthest in ((AT_MOST, low, high - 1), (AT_LEAST, high, low + 1)):
            if low == high or not row.suspects(box.narrowed((variable, relation, nearest))):
                continue
            shut, unknown = nearest, farthest
            while shut != unknown:
                middle = (shut + unknown + (1 if unknown > shut else 0)) // 2
                if row.suspects(box.narrowed((variable, relation, middle))):
                    shut = middle
                else:
                    unknown = middle - 1 if unknown > shut else middle + 1
            yield (variable, relation, shut)

    def split(self, box):
        """The lower half of the shortest range that is open."""
        open_variables = box.open_variables()
        if not open_variables:
            raise Assignment([low for low, _ in box.bounds])
        variable = min(open_variables, key=lambda x: box.high(x) - box.low(x))
        return (variable, AT_MOST, (box.low(variable) + box.high(variable)) // 2)

    def refute(self, before, decision):
        """Shows that `before` and the decision leave nothing: a fact whose premises hold in `before`.

        It gives false, or the negation of the decision (or of a weaker bound that was enough).
        Without a decision it gives false.
        """
        entry = before.narrowed(decision) if decision else before
        box, trail = entry.copy(), []
        while True:
            fact = self.conflict(box) or self.cut(box) or self.refute(box, self.split(box))
            if fact.consequent is None:
                return self.node(before, entry, trail, fact)
            trail.append(fact)
            box.narrow(fact.consequent)

    def node(self, before, entry, trail, last):
        """The deduction for a whole node, from its trail and the fact `last` that gives false."""
        hints = self.supports(trail, last, entry)
        if len(hints) >= MOST_HINTS:
            trail = self.from_entry(trail, hints, entry)
            hints = self.supports(trail, last, entry)
        premises = self.tightest(atom for fact in [*hints, last] for atom in fact.premises if entry.holds(atom))
        by_decision = [atom for atom in premises if not before.holds(atom)]
        if not hints and not by_decision and sorted(last.premises) == premises:
            return last
        consequent = negated(by_decision[0]) if by_decision else None
        return self.log.deduction([a for a in premises if a not in by_decision], consequent, [*hints, last])

    def supports(self, trail, last, entry):
        """The facts of the trail that `last` rests on, in the order of the trail."""
        needed, todo = set(), [last]
        while todo:
            for atom in todo.pop().premises:
                if not entry.holds(atom):
                    index = next(i for i, fact in enumerate(trail) if implies(fact.consequent, atom))
                    if index not in needed:
                        needed.add(index)
                        todo.append(trail[index])
        return [trail[index] for index in sorted(needed)]

    def from_entry(self, trail, needed, entry):
        """Past 64 hints: a chain of facts. Each says of one cut that it follows from the bounds of the entry alone."""
        chain = []
        for fact in needed:
            hints = self.supports(chain, fact, entry)
            premises = self.tightest(a for f in [*hints, fact] for a in f.premises if entry.holds(a))
            premises = [a for a in premises if not implies(negated(fact.consequent), a)]
            chain.append(self.log.deduction(premises, fact.consequent, [*hints, fact]))
        return chain

    def tightest(self, atoms):
        """One atom for each end of a variable's range, and none that the declared bounds give anyway."""
        kept = {}
        for variable, relation, value in atoms:
            if not self.declared.holds((variable, relation, value)):
                better = min if relation == AT_MOST else max
                kept[variable, relation] = better(value, kept.get((variable, relation), value))
        return sorted((variable, relation, value) for (variable, relation), value in kept.items())


def implies(atom, other):
    """Whether the atom makes the other true; both are bounds."""
    if atom[:2] != other[:2]:
        return False
    return atom[2] <= other[2] if atom[1] == AT_MOST else atom[2] >= other[2]


# ---------------------------------------------------------------- the commands


def no_assignment(path):
    search = Search(Model(path))
    fact = search.refute(search.declared, None)
    return search.log.text(fact, [3], "no assignment")


def never_below(path, variable, value):
    model = Model(path)
    if not 0 <= variable < len(model.declared.bounds):
        raise BadInput(f"there is no variable {variable}")
    if not model.declared.low(variable) < value <= LARGEST:
        raise OverLimit(f"x{variable} >= {value} cannot be the fact of a step: its box would be empty or its value too large")
    search = Search(model)
    wanted = (variable, AT_LEAST, value)
    fact = search.refute(search.declared, negated(wanted))
    if fact.consequent is None or not implies(fact.consequent, wanted):
        fact = search.log.deduction([], wanted, [fact])  # there is no assignment at all, so this holds too
    return search.log.text(fact, [4, variable, value], f"x{variable} is never below {value}")


def pigeonhole(pigeons, holes):
    """The model and the log: each pigeon has a hole, no two the same, and there are too few."""
    if not 2 <= pigeons <= MOST_PREMISES or holes < 1:
        raise BadInput(f"2 to {MOST_PREMISES} pigeons, and 1 hole or more")
    if holes >= pigeons:
        raise Assignment(list(range(1, pigeons + 1)))
    everyone = range(pigeons)
    model = [f"# {pigeons} pigeons, {holes} holes", str(pigeons)]
    model += [f"1 {holes}" for _ in everyone]
    model += ["1", f"2 {pigeons} " + " ".join(map(str, everyone))]
    log = Log()
    crowd = log.inference(0, [(x, AT_LEAST, 1) for x in everyone], None)
    shed = log.deduction([], None, [crowd])
    return "\n".join(model) + "\n", log.text(shed, [3], "no assignment")


def write(path, text):
    try:
        with open(path, "w", encoding="utf-8") as file:
            file.write(text)
    except OSError as trouble:
        raise BadInput(f"{path}: {trouble}") from trouble


def number(text):
    if not re.fullmatch(r"-?[0-9]+", text):
        raise BadInput(f"no number: {text}")
    return int(text)


def run(arguments):
    command, given = (arguments or [""])[0], arguments[1:]
    if command == "no-assignment" and len(given) == 1:
        sys.stdout.write(no_assignment(given[0]))
    elif command == "never-below" and len(given) == 3:
        sys.stdout.write(never_below(given[0], number(given[1]), number(given[2])))
    elif command == "pigeonhole" and len(given) == 4:
        model, log = pigeonhole(number(given[0]), number(given[1]))
        write(given[2], model)
        write(given[3], log)
    else:
        raise BadInput(__doc__.split("\n\n")[1])


def main():
    sys.setrecursionlimit(10_000)  # a node for each split above it: at most 64 variables, halved 18 times each
    try:
        run(sys.argv[1:])
    except Assignment as found:
        print("no log is written: these values meet every row:", *found.values, file=sys.stderr)
        return 1
    except BadInput as trouble:
        print(trouble, file=sys.stderr)
        return 2
    except OverLimit as trouble:
        print("no log is written:", trouble, file=sys.stderr)
        return 3
    return 0


if __name__ == "__main__":
    sys.exit(main())
