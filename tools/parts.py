"""What a tool says of each thing that it tries: a line `WHAT: passed`, `WHAT: failed, WHY` or `WHAT: left out, WHY`, and below it, indented,
what was written there."""
import re
import subprocess
from typing import NamedTuple, Optional

from repository import TOP

LINE = re.compile(r"(\S.*): (passed|failed|left out)(?:, (.*))?")


class Part(NamedTuple):
    """A thing that is tried: what is wrong with it, or why it is left out, if either."""

    name: str
    wrong: Optional[str] = None
    left_out: Optional[str] = None

    def lines(self):
        kind, said = ("failed", self.wrong) if self.wrong else ("left out", self.left_out) if self.left_out else ("passed", None)
        return f"{self.name}: {kind}" + (f", {indented(said)}" if said else "")


def indented(text):
    """A text whose further lines are indented, so that none of them begins a part."""
    return text.strip().replace("\n", "\n    ")


def said_by(tool):
    """The parts of what a tool tries, as it says them."""
    done = subprocess.run([f"{TOP}/tools/{tool}"], stdout=subprocess.PIPE, stderr=subprocess.STDOUT, text=True)
    parts = []
    for line in done.stdout.splitlines():
        found = LINE.fullmatch(line)
        if found:
            parts.append([found[1], found[2], found[3] or found[2]])
        elif parts and line.startswith("    "):
            parts[-1][2] = f"{parts[-1][2]}\n{line[4:]}"
    told = [Part(name, said if kind == "failed" else None, said if kind == "left out" else None) for name, kind, said in parts]
    if done.returncode and not any(it.wrong for it in told):
        told.append(Part(tool, f"status {done.returncode}\n{done.stdout}"))
    return told
