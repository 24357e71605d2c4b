#!/usr/bin/env python3
"""Respells the repository's own definitions and lemmas in snake case, after the kit's port.py has run, once, at the top of the repository.

A name of specs/ or of a lemma file is turned where a module declares it, and in each file that sees it: its own module's, and those that import it.
Fields are turned behind a dot, in a record's braces and where they are declared. Types, modules, names of src/, exported names, strings, and the goals that
the checker names keep their spelling. In comments and pages, the names between backticks are turned. Theorems that a must-fail edit of a definition has to
leave standing move from specs/ to proofs/ (MOVED). With --check nothing is written: what would fall together is listed.
"""
import pathlib
import re
import sys

ROOT = pathlib.Path.cwd()
CHECK = "--check" in sys.argv

WORD = r"[^\s(){}.;,@\"«»]+"
TOKEN = re.compile(rf"--[^\n]*|\"(?:[^\"\\\n]|\\.)*\"|{WORD}|.", re.S)

# A lemma that would have the name of what it is about ends in _lem.
SPECIAL = {
    "marked-each": "marked_each_lem",
    "each_at": "each_at_lem",
    "no-activity": "no_activity_lem",
    "says-at-least": "says_at_least_lem",
    "says-false": "says_false_lem",
    "carries-all": "carries_all_lem",
    "counts_all": "counts_all_lem",
    "judges-first": "judges_first_lem",
    "writes-no-places": "writes_no_places_lem",
    "is-empty": "is_empty_lem",
    "is-at-least": "is_at_least_lem",
    "up-to": "up_to_lem",
    "least-sum": "least_sum_lem",
    "least-term": "least_term_lem",
    "one_more": "one_more_lem",
    "bounds-at": "bounds_at_lem",
    "activity-words": "activity_words_lem",
    "row_words": "row_words_lem",
    "term-words": "term_words_lem",
    "variable-words": "variable_words_lem",
    "or-none": "or_none_lem",
    "bind-got": "bind_got_lem",
    "term_words": "term_words_lem",
    "then_next": "then_next_lem",
    "bit-and": "bit_and_lem",
    "bit-or": "bit_or_lem",
    "bit-xor": "bit_xor_lem",
}

# the proofs of the claims leave specs/, so that an edit of a definition reads; the one definition among them, which a contract cites, stays
MOVED = [("Rattle.meaning.specs.Proved.Below", "Rattle.meaning.specs.Below"), ("Rattle.meaning.specs.Proved", "Rattle.meaning.proofs.Proved")]


def snake(name):
    if name in SPECIAL:
        return SPECIAL[name]
    if re.fullmatch(r"◌.*|.*◌", name):
        return name
    new = name.replace("getD", "get_or")
    new = re.sub(r"^T(le|lt)Z", r"T_\1_z", new)
    new = re.sub(r"(?<=[a-z0-9])([A-Z])(?=[a-z])", lambda m: "_" + m.group(1).lower(), new)
    new = re.sub(r"(?<=[a-z0-9])([A-Z]+)(?=[^A-Za-z]|$)", lambda m: "_" + m.group(1).lower(), new)
    new = new.replace("-", "_")
    return new


def is_type_name(name):
    return name[:1].isupper() and "-" not in name and not re.match(r"T(le|lt)Z", name)


def module_of(path):
    """The module path of an .antt file, as Rattle.CRATE.specs.A.B."""
    parts = path.relative_to(ROOT / "crates").with_suffix("").parts
    return ".".join(("Rattle",) + parts)


files = sorted((ROOT / "crates").glob("*/specs/**/*.antt")) + sorted((ROOT / "crates").glob("*/proofs/**/*.antt"))
files = [f for f in files if "out" not in f.parts]
sources = sorted((ROOT / "crates").glob("*/src/**/*.rt"))

DECL = re.compile(rf"^(\s*)((?:abbrev |unfoldable |pub |ruleset )*)({WORD}(?: {WORD})*?) :(?=\s)")
HEAD = re.compile(rf"^(\s*)((?:pub |abbrev |unfoldable )*)(data|record|ruleset) ({WORD})")

declared = {}  # module -> {old: kind}
fields = set()
generated_answers = {}
for f in files:
    names = {}
    in_record = None
    is_fn_proof = f.name in ("Proof.antt", "Invariants.antt", "Answers.antt")
    for line in f.read_text().splitlines():
        if line.strip().startswith("--") or line.startswith("use "):
            continue
        h = HEAD.match(line)
        if h:
            in_record = h.group(3)
            indent = len(h.group(1))
            if h.group(3) == "ruleset":
                names[h.group(4)] = "word"
            continue
        d = DECL.match(line)
        if d:
            depth = len(d.group(1))
            kind = "field" if in_record == "record" and depth > indent else ("constructor" if in_record == "data" and depth > indent else "word")
            if depth == 0:
                in_record = None
                kind = "word"
            for n in d.group(3).split(" "):
                if re.match(r"[(\[{→×=λ]", n):
                    continue
                if is_type_name(n):
                    continue
                if is_fn_proof and (depth == 0) and re.search(r"tie\.(Need|invariant|decreases)|statement", line):
                    continue
                names[n] = kind
                if kind == "field":
                    fields.add(n)
        elif line and not line.startswith(" ") and not line.startswith("use"):
            in_record = None if not HEAD.match(line) else in_record
    declared[module_of(f)] = names

# what a name becomes
new_of = {}
for names in declared.values():
    for n in names:
        new_of[n] = snake(n)
changed = {n: m for n, m in new_of.items() if n != m}
field_map = {n: snake(n) for n in fields if snake(n) != n}

USE = re.compile(rf"^(?:ghost )?use (Rattle\.{WORD}(?:\.{WORD})*)(?:\.\{{([^}}]*)\}})?(?: as ({WORD}))?;?", re.M)


def scope(text, module):
    """What the file sees: old name -> new name; and the names that it has from elsewhere."""
    table, foreign = {}, set()
    for n in declared.get(module, {}):
        table[n] = snake(n)
    for m in re.finditer(rf"(?:ghost )?use ({WORD}(?:\.{WORD})*)\.\{{([^}}]*)\}}", text):
        path, items = m.group(1), m.group(2)
        for item in re.split(r",\s*", items.strip()):
            if not item:
                continue
            parts = item.split(" as ")
            own = path in declared and parts[0].strip() in declared[path]
            if own and len(parts) == 1:
                table[parts[0].strip()] = snake(parts[0].strip())
            elif own:
                local = parts[1].strip()
                table.setdefault("\0" + path + "\0" + parts[0].strip(), snake(parts[0].strip()))
                if not is_type_name(local) and snake(local) != local:
                    table[local] = snake(local)
                else:
                    foreign.add(local)
            else:
                foreign.add(parts[-1].strip())
    return table, foreign


def turn_use(m):
    path, items = m.group(2), m.group(3)
    if path not in declared:
        return m.group(0)
    out = []
    for item in re.split(r",\s*", items.strip()):
        parts = [p.strip() for p in item.split(" as ")]
        if parts[0] in declared[path]:
            parts[0] = snake(parts[0])
        if len(parts) == 2 and not is_type_name(parts[1]):
            parts[1] = snake(parts[1])
        out.append(parts[0] if len(parts) == 1 or parts[0] == parts[1] else " as ".join(parts))
    return f"{m.group(1) or ''}use {path}.{{{', '.join(out)}}}"


USES = re.compile(rf"(ghost )?use ({WORD}(?:\.{WORD})*)\.\{{([^}}]*)\}}")
clashes = []


def turn_code(text, table, where, spans_only=False):
    out = []
    pos = 0
    before = ""
    tokens = TOKEN.findall(text)
    for i, t in enumerate(tokens):
        if t.startswith("--"):
            out.append(turn_spans(t))
        elif t.startswith('"'):
            out.append(t)
        elif before == ".":
            out.append(field_map.get(t, t) if t in field_map else (turn_behind_dot(t, tokens, i, table)))
        elif t in table:
            out.append(table[t])
        elif t in field_map and in_record_braces(tokens, i):
            out.append(field_map[t])
        else:
            out.append(t)
        before = t
    return "".join(out)


def in_record_braces(tokens, i):
    j = i + 1
    while j < len(tokens) and tokens[j].isspace():
        j += 1
    if j >= len(tokens) or tokens[j] != "=":
        return False
    j = i - 1
    while j >= 0 and (tokens[j].isspace() or tokens[j].startswith("--")):
        j -= 1
    return j >= 0 and tokens[j] in ("{", ";")


ALIAS = {}


def turn_behind_dot(t, tokens, i, table):
    # a name behind a module: m.name
    j = i - 2
    if j >= 0 and tokens[j] in ALIAS and t in ALIAS[tokens[j]]:
        return snake(t)
    return t


SPAN = re.compile(r"`([^`\n]+)`")


def turn_spans(text):
    def go(m):
        return "`" + re.sub(WORD, lambda w: changed.get(w.group(0), w.group(0)) if w.group(0) not in KEPT_IN_TEXT else w.group(0), m.group(1)) + "`"

    return SPAN.sub(go, text)


KEPT_IN_TEXT = {"must-fail", "x86-64"}


def turn_antt(f):
    text = f.read_text()
    table, foreign = scope(text, module_of(f))
    table = {k: v for k, v in table.items() if not k.startswith("\0")}
    ALIAS.clear()
    for m in re.finditer(rf"^use ({WORD}(?:\.{WORD})*) as ({WORD})$", text, re.M):
        if m.group(1) in declared:
            ALIAS[m.group(2)] = declared[m.group(1)]
    tokens = set(TOKEN.findall(re.sub(r"--[^\n]*", "", text)))
    for old, new in table.items():
        if old != new and (new in foreign or (new in tokens and new not in {table[x] for x in table if x == new})):
            if new in table or new in foreign or new in tokens:
                clashes.append(f"{f.relative_to(ROOT)}: {old} -> {new}")
    seen = {}
    for old, new in table.items():
        if new in seen and seen[new] != old:
            clashes.append(f"{f.relative_to(ROOT)}: {old} and {seen[new]} -> {new}")
        seen[new] = old
    uses = []

    def hold(m):
        uses.append(turn_use(m))
        return f"\1{len(uses) - 1}\2"

    body = USES.sub(hold, text)
    body = turn_code(body, table, f)
    body = re.sub("\1(\\d+)\2", lambda m: uses[int(m.group(1))], body)
    return body


CLAUSE = re.compile(r"^(\s*)(requires|ensures|ghost \w+:)([^{\n]*)\{", re.M)


def turn_rt(f):
    text = f.read_text()
    table, foreign = scope(text, None)
    table = {k: v for k, v in table.items() if not k.startswith("\0")}
    out, pos = [], 0
    for m in re.finditer(rf"(?P<use>ghost use [^;]*;)|(?P<comment>//[^\n]*)|(?P<clause>^\s*(?:requires|ensures)[^{{\n]*\{{)", text, re.M):
        if m.start() < pos:
            continue
        out.append(text[pos:m.start()])
        if m.group("use"):
            out.append(USES.sub(turn_use, m.group(0)))
            pos = m.end()
        elif m.group("comment"):
            out.append(turn_spans(m.group(0)))
            pos = m.end()
        else:
            depth, j = 1, m.end()
            while depth:
                depth += {"{": 1, "}": -1}.get(text[j], 0)
                j += 1
            out.append(m.group(0) + turn_code(text[m.end():j], table, f))
            pos = j
    out.append(text[pos:])
    return "".join(out)


def move():
    crate = ROOT / "crates" / "meaning"
    specs, proofs = crate / "specs", crate / "proofs"
    if not (specs / "Proved.antt").exists():
        return
    proofs.mkdir(exist_ok=True)
    (specs / "Proved" / "Below.antt").rename(specs / "Below.antt")
    (specs / "Proved.antt").rename(proofs / "Proved.antt")
    (specs / "Proved").rename(proofs / "Proved")
    top = proofs / "Proved.antt"
    top.write_text(top.read_text().replace("pub mod Below\n", ""))
    lib = specs / "Lib.antt"
    lib.write_text(lib.read_text().replace("pub mod Proved\n", "").replace("pub mod Limits\n", "pub mod Below\npub mod Limits\n"))
    (proofs / "Lib.antt").write_text("pub mod Proved\n")


def main():
    results = {}
    for f in files:
        results[f] = turn_antt(f)
    for f in sources:
        results[f] = turn_rt(f)
    for f in [ROOT / "README.md", *sorted((ROOT / "docs").glob("**/*.md")), *sorted((ROOT / "tests").glob("*.md"))]:
        results[f] = turn_spans(f.read_text())
    n = 0
    for f in results:
        for old, new in MOVED:
            results[f] = re.sub(re.escape(old) + r"(?![A-Za-z])", new, results[f])
    for f, text in results.items():
        if text != f.read_text():
            n += 1
            if not CHECK:
                f.write_text(text)
    if not CHECK:
        move()
    print(f"{len(changed)} names, {n} files" + (" would change" if CHECK else " changed"))
    for c in sorted(set(clashes)):
        print("falls together:", c)
    if "--names" in sys.argv:
        for a, b in sorted(changed.items()):
            print(a, b)


main()
