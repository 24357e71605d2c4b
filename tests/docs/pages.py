"""Runs the fenced examples of the pages, in their order, each page in a copy of the repository of its own.

What stands on the line above a fence says what the block is:

  <!-- file: NAME -->       it is written to NAME; where the repository has a file of that name, it must be the same
  <!-- output -->           it is the standard output of the sh block before it
  <!-- not run: REASON -->  a long command that the tests run elsewhere
  nothing                   it is an sh block and is run; any other block without a mark is a failure
"""

import os
import re
import shutil
import subprocess
import tempfile
from pathlib import Path

PAGES = ["README.md", "docs/FORMAT.md", "docs/LINKING.md"]
MARK = re.compile(r"<!-- (file|not run|output)(?:: (.*))? -->")
# where a command that is not run here has to be run
RUNNERS = [".ci/run", "tests/run", "tests/docs/run"]


class Block:
    def __init__(self, line, language, mark, argument):
        self.line, self.language, self.mark, self.argument, self.text = line, language, mark, argument, ""


def blocks_of(text):
    """The fenced blocks of a page, and the lines at which code stands without a fence."""
    blocks, unfenced, block, above, in_list = [], [], None, "", False
    lines = text.split("\n")
    for number, line in enumerate(lines, 1):
        if block is not None:
            if line.startswith("```"):
                blocks.append(block)
                block = None
            else:
                block.text += line + "\n"
        elif line.startswith("```"):
            found = MARK.fullmatch(above)
            mark, argument = found.groups() if found else (None, None)
            block = Block(number, line[3:].strip(), mark, argument)
        elif re.match(r"( {4}|\t)\S", line) and not in_list:
            unfenced.append(number)
        elif line.strip() and not line[0].isspace():
            in_list = re.match(r"([-*]|[0-9]+\.) ", line) is not None
        above = line if block is None else ""
    if block is not None:
        unfenced.append(block.line)
    return blocks, unfenced


def copy_of(root, into):
    """The files of the repository, and what was built as links."""
    listed = subprocess.run(["git", "ls-files", "-co", "--exclude-standard", "-z"], cwd=root, capture_output=True, text=True)
    if listed.returncode == 0:
        for name in filter(None, listed.stdout.split("\0")):
            if (root / name).is_file():
                (into / name).parent.mkdir(parents=True, exist_ok=True)
                shutil.copy2(root / name, into / name)
    else:
        shutil.copytree(root, into, ignore=shutil.ignore_patterns("target", ".git"), dirs_exist_ok=True)
    (into / "target").mkdir()
    for built in (root / "target").iterdir():
        (into / "target" / built.name).symlink_to(built)


def run_shell(text, folder):
    """As a reader would run it: nothing is set for the tests, and the first command that fails ends it."""
    settings = {name: value for name, value in os.environ.items() if name not in ("CARGO_TARGET_DIR", "DIMPSYHOLT_LIB_DIR")}
    return subprocess.run(["bash", "-e", "-o", "pipefail", "-c", text], cwd=folder, env=settings, capture_output=True, text=True)


def trouble_of_long(block, root):
    """A long command is there, and something that the merge check runs names it."""
    for line in block.text.splitlines():
        words = line.split("#")[0].split()
        while words and words[0] in ("bash", "sh", "time"):
            words.pop(0)
        if not words:
            continue
        if not (root / words[0]).is_file() and shutil.which(words[0]) is None:
            return f"there is no {words[0]}"
        texts = [(root / name).read_text() for name in RUNNERS if (root / name).is_file()]
        if words[0] not in RUNNERS and not any(" ".join(words) in text for text in texts):
            return f"no test runs {' '.join(words)}"
    return "" if block.argument else "no reason is given"


def first_difference(wanted, got):
    for number, (a, b) in enumerate(zip(wanted.split("\n") + ["(end)"], got.split("\n") + ["(end)"]), 1):
        if a != b:
            return f"line {number}: the page has {a!r}, the command says {b!r}"
    return ""


class Page:
    """One page at work in its copy of the repository."""

    def __init__(self, root, folder):
        self.root, self.folder, self.said = root, folder, None

    def trouble(self, block):
        if block.mark == "file":
            return self.write(block)
        if block.mark == "output":
            return self.compare(block)
        if block.language != "sh":
            return "a code block without a mark"
        if block.mark == "not run":
            return trouble_of_long(block, self.root)
        done = run_shell(block.text, self.folder)
        self.said = done.stdout
        return f"exit status {done.returncode}\n{done.stdout}{done.stderr}" if done.returncode else ""

    def write(self, block):
        path = self.folder / block.argument
        if not path.resolve().is_relative_to(self.folder.resolve()):
            return f"{block.argument} is not in the repository"
        if path.exists():
            return first_difference(block.text, path.read_text())
        path.parent.mkdir(parents=True, exist_ok=True)
        path.write_text(block.text)
        return ""

    def compare(self, block):
        if self.said is None:
            return "output of nothing"
        return first_difference(block.text, self.said)


def examined(root, text):
    """Each example of a page with what is wrong with it, as (line, trouble); the trouble is empty where nothing is."""
    blocks, unfenced = blocks_of(text)
    for line in unfenced:
        yield line, "code that is not fenced"
    with tempfile.TemporaryDirectory() as scratch:
        folder = Path(scratch) / "repository"
        folder.mkdir()
        copy_of(root, folder)
        page = Page(root, folder)
        for block in blocks:
            yield block.line, page.trouble(block)


# pages that must not pass
BROKEN = {
    "a block without a mark": "```\nx\n```\n",
    "code without a fence": "Text:\n\n    x\n",
    "a fence that is left open": "```sh\ntrue\n",
    "a command that fails": "```sh\nfalse\ntrue\n```\n",
    "a command that fails in a pipe": "```sh\nfalse | cat\n```\n",
    "another output": "```sh\necho a\n```\n\n<!-- output -->\n```\nb\n```\n",
    "too little output": "```sh\nprintf 'a\\nb\\n'\n```\n\n<!-- output -->\n```\na\n```\n",
    "output of nothing": "<!-- output -->\n```\n```\n",
    "a file that the repository has otherwise": "<!-- file: README.md -->\n```\nx\n```\n",
    "a file outside": "<!-- file: ../x -->\n```\nx\n```\n",
    "a long command that is not there": "<!-- not run: long -->\n```sh\ntools/none\n```\n",
    "a long command that no test runs": "<!-- not run: long -->\n```sh\ncat README.md\n```\n",
    "a long command without a reason": "<!-- not run:  -->\n```sh\ntools/build\n```\n",
}


def run(root, tally):
    for name, text in BROKEN.items():
        noticed = any(trouble for _, trouble in examined(root, text))
        tally.check(name, "" if noticed else "nobody noticed")
    for name in PAGES:
        found = list(examined(root, (root / name).read_text()))
        for line, trouble in found:
            tally.check(f"{name}:{line}", trouble)
        tally.check(name, "" if found else "no example at all")
