"""Every table in examples/ gets the verdict that examples/expected.txt has."""

import subprocess


def expected(root):
    """The lines 'arguments | exit status | first line of the answer'."""
    for line in (root / "examples/expected.txt").read_text().splitlines():
        if line.split("#")[0].strip():
            yield [part.strip() for part in line.split("|")]


def run(root, command, tally):
    named = set()
    for arguments, status, first in expected(root):
        words = arguments.split()
        named.update(words[1:])
        done = subprocess.run([command, *words], cwd=root / "examples", capture_output=True, text=True)
        got = [str(done.returncode), (done.stdout.splitlines() or [""])[0]]
        tally.check(arguments, "" if got == [status, first] else f"expected {status}, {first!r}; got {got}")
    for table in sorted((root / "examples").glob("*/*.txt")):
        name = str(table.relative_to(root / "examples"))
        tally.check(name, "" if name in named else "expected.txt does not have it")
