"""What the tools read of the repository: its crates, what these stand on, their texts, and the edits that must be refused."""
import functools
import glob
import hashlib
import os
import re
import subprocess
import sys
from typing import NamedTuple

TOP = os.path.dirname(os.path.dirname(os.path.abspath(__file__)))


def stands_on():
    """What each crate stands on, in the order of crates.txt."""
    with open(f"{TOP}/crates.txt") as lines:
        parts = [line.split("#")[0].partition(":") for line in lines if ":" in line.split("#")[0]]
    return {head.split()[0]: rest.split() for head, _, rest in parts}


CRATES = stands_on()


def below(crate):
    """The repository's crates that a crate stands on, the lowest first."""
    found = []
    for name in CRATES[crate]:
        if name in CRATES:
            found += [it for it in [*below(name), name] if it not in found]
    return found


@functools.lru_cache(None)
def told_by_rt(word):
    """What a command of the toolchain tells; without the toolchain nothing goes on."""
    try:
        return subprocess.run(["rt", word], stdout=subprocess.PIPE, text=True, check=True).stdout
    except OSError:
        sys.exit(f"tools/{os.path.basename(sys.argv[0])}: no toolchain: `rt` is not on the PATH (README, under Quick start, says where it comes from)")


def kit():
    """The folder of the kit, which holds the toolchain and its libraries."""
    return os.path.dirname(told_by_rt("doc").strip())


def read(path):
    with open(path, encoding="utf-8") as text:
        return text.read()


def checksum(*texts):
    total = hashlib.sha256()
    for text in texts:
        total.update(text.encode() + b"\0")
    return total.hexdigest()[:16]


def text_of(crate, *parts):
    """The checksum of a crate's text: the names and the content of the files in these folders of it."""
    files = [path for part in parts for path in glob.glob(f"{TOP}/crates/{crate}/{part}/**/*.*", recursive=True)]
    return checksum(*[text for path in sorted(files) for text in (os.path.relpath(path, TOP), read(path))])


def code_of(crate, *parts):
    """The same of its code, without the lines that are comments."""
    texts = []
    for path in sorted(path for part in parts for path in glob.glob(f"{TOP}/crates/{crate}/{part}/**/*.*", recursive=True)):
        lines = [line for line in read_lines(path) if not line.lstrip().startswith("//" if path.endswith(".rt") else "--")]
        texts += [os.path.relpath(path, TOP), "\n".join(lines)]
    return checksum(*texts)


class Edit:
    """A wrong body. `changes` has the new line for each file of src and number of a line that it changes (the first is 0), `within` the
    functions that it names, and `fault` says what is wrong with the edit itself."""

    def __init__(self, crate, name, text):
        self.name, self.text = name, text
        self.within, self.changes, self.fault, self.sum = [], {}, None, checksum(self.text)
        texts, file, old = {}, None, None
        for line in self.text.split("\n"):
            word, _, rest = line.partition(": ")
            if word == "file":
                file = rest.strip().removeprefix("src/")
                texts.setdefault(file, read_lines(f"{TOP}/crates/{crate}/src/{file}"))
            elif word == "in":
                self.within.append(rest.strip())
            elif word == "old":
                old = rest
            elif word in ("new", "new:"):
                self.replace(file, texts.get(file, []), old or "", rest)
            elif line and not line.startswith("#"):
                self.fault = self.fault or f"`{line}` is no line of an edit"
        if not self.changes and not self.fault:
            self.fault = "it changes nothing"

    def replace(self, file, lines, old, new):
        found = [number for number, line in enumerate(lines) for _ in range(line.count(old))]
        if len(found) != 1:
            self.fault = self.fault or f"`{old.strip()}` stands {len(found)} times in src/{file}, and not once"
            return
        lines[found[0]] = lines[found[0]].replace(old, new)
        self.changes[file, found[0]] = lines[found[0]]


def read_lines(path):
    return read(path).split("\n") if os.path.exists(path) else []


class Paragraph(NamedTuple):
    """What bodies/CRATE.edits has of an edit: its name, its text, and what refused that. There is no text where the gate tries the edit."""

    name: str
    text: str
    refused: str


def paragraphs_of(crate):
    """The checksum of the code on which the edits of bodies/CRATE.edits were tried, and its paragraphs: one begins at each line `edit:`."""
    parts = re.split(r"\n{2,}|\n(?=edit: )", "\n".join(read_lines(f"{TOP}/bodies/{crate}.edits")).strip("\n"))
    tried_on = re.findall(r"^tried on: (.*)$", parts[0], re.M)
    paragraphs = []
    for part in parts[bool(tried_on):]:
        said = dict(re.findall(r"^(edit|refused): (.*)$", part, re.M))
        text = re.sub(r"^(edit|refused): .*\n", "", f"{part}\n", flags=re.M)
        paragraphs.append(Paragraph(said.get("edit", ""), text, said.get("refused", "")))
    return "".join(tried_on), [it for it in paragraphs if it.name or it.text.strip()]


def edits_of(crate):
    """The edits of a crate: those of its file in bodies, and those that the gate tries, which are files of their own."""
    gate = {os.path.basename(path).removesuffix(".edit"): read(path) for path in sorted(glob.glob(f"{TOP}/crates/{crate}/must-fail/*.edit"))}
    kept = [(it.name, it.text) for it in paragraphs_of(crate)[1] if it.text or it.name not in gate]
    edits = [Edit(crate, name, text) for name, text in [*kept, *gate.items()]]
    names = [edit.name for edit in edits]
    for edit in edits:
        if not edit.name or names.count(edit.name) > 1:
            edit.fault = "it has no name" if not edit.name else "another edit has its name"
    return edits
