"""Copies of crates with `unreachable!()` for bodies and holes for proofs, over which one function is checked in a minute.

The layout of `rt fmt` is taken as given. Functions of traits and of macros, and what implements `Drop`, stay as they are.
"""
import glob
import os
import re
import shutil
from typing import NamedTuple

from repository import CRATES, TOP, below, kit, read

FN = re.compile(r"(    )?(?:pub(?:\([a-z]+\))? )?(?:unsafe )?(?:const )?fn (\w+)")
CYCLE = re.compile(r"#\[cycle\((\w+)\)\]$")
TYPE = re.compile(r"^(?:pub(?:\([a-z]+\))? )?(?:struct|enum|trait) (\w+)", re.M)


class Function(NamedTuple):
    """A function: its file in src, the numbers of its first line, of that which opens its body and of that which closes it, and its path."""

    file: str
    head: int
    body: int
    end: int
    path: tuple

    @property
    def name(self):
        return "::".join(self.path)

    def holds(self, file, number):
        return self.file == file and self.head <= number <= self.end


def without_generics(text):
    """What stands behind `impl`, without its own generics."""
    depth = 0
    for place, letter in enumerate(text):
        depth += (letter == "<") - (letter == ">" and text[place - 1] != "-")
        if depth == 0:
            return text[place + (letter == ">"):]
    return text


def owner_of(line, module, homes):
    """The path under which the functions of a block stand, or none where they stay as they are."""
    head = without_generics(line.removeprefix("unsafe ")[4:].split(" where ")[0]).strip()
    trait, _, owner = head.rpartition(" for ")
    name = re.match(r"&?(?:'\w+ )?(?:\w+::)*(\w+)", owner)[1]
    if trait:
        trait, of = re.match(r"(?:\w+::)*(\w+)(?:<(\w+))?", trait).groups()
        return None if trait in ("Model", "Drop") else (*module, f"{name}{trait}{of[0].upper() + of[1:] if trait == 'From' else ''}")
    return (*module, f"{name}+Global") if re.search(r"Global|<(Fault|usize|u64)", owner) else (*homes.get(name, module), name)


def body_of(lines, head, indent):
    """The lines that open and close the body of the function that begins at `head`."""
    start = head
    while not re.fullmatch(rf"{indent}\{{|.*\{{\}}|{indent}[)>].* \{{", lines[start]) and not (start == head and lines[head].endswith(" {")):
        start += 1
    return start, start if lines[start].endswith("{}") else lines.index(f"{indent}}}", start)


def functions_of(crate):
    """The functions of a crate that have a body and a proof of their own."""
    source = f"{TOP}/crates/{crate}/src"
    texts = {os.path.relpath(path, source): read(path) for path in sorted(glob.glob(f"{source}/**/*.rt", recursive=True))}
    modules = {file: () if file in ("lib.rt", "main.rt") else tuple(file.removesuffix(".rt").split("/")) for file in texts}
    homes = {name: modules[file] for file, text in texts.items() for name in TYPE.findall(text)}
    found = []
    for file, text in texts.items():
        lines, owner = text.split("\n"), None
        for number, line in enumerate(lines):
            if line.startswith(("impl", "unsafe impl")):
                owner = owner_of(line, modules[file], homes)
            elif line.startswith("}") or re.match(r"(pub(\([a-z]+\))? )?trait ", line):
                owner = None
            fn = FN.match(line)
            path = fn and (owner if fn[1] else modules[file])
            if path is not None and fn:
                found.append(Function(file, number, *body_of(lines, number, fn[1] or ""), (*path, fn[2])))
    return found


def put_hole(base, crate, path):
    """Leaves a hole as the proof of a function."""
    folder = f"{base}/proofs/{'/'.join(path)}"
    os.makedirs(folder, exist_ok=True)
    for file in glob.glob(f"{folder}/*.antt"):
        os.remove(file)
    with open(f"{folder}/Proof.antt", "w") as proof:
        proof.write(f"use Rattle.{crate}.proofs.{'.'.join(path)}.Statement as stated\n\n"
                    f"pub {path[-1]}_spec : {{M : Type 1}} → stated.statement M\n{path[-1]}_spec = ?\n")


def copy(crate, base, keep=(), changes={}):
    """Copies a crate with a hole for each function but those to keep, and the changed lines in. Each line keeps its number."""
    shutil.rmtree(base, ignore_errors=True)
    for part in ("src", "specs", "proofs"):
        if os.path.isdir(f"{TOP}/crates/{crate}/{part}"):
            shutil.copytree(f"{TOP}/crates/{crate}/{part}", f"{base}/{part}")
    functions = [it for it in functions_of(crate) if it not in keep]
    for path in functions:
        put_hole(base, crate, path.path)
    for file in {it.file for it in functions} | {file for file, _ in changes}:
        lines = read(f"{base}/src/{file}").split("\n")
        for it in functions:
            if it.file == file and it.end > it.body:
                lines[it.body + 1:it.end] = ["unreachable!()", *[""] * (it.end - it.body - 2)]
        # A cycle of calls is none any more where one of its functions has no body.
        heads = {lines[it.head - 1] for it in functions if it.file == file}
        for cycle in filter(None, map(CYCLE.match, heads)):
            lines = ["" if line == cycle[0] else line for line in lines]
            shutil.rmtree(f"{base}/proofs/{file.removesuffix('.rt')}/+{cycle[1]}", ignore_errors=True)
        for (_, number), line in ((at, line) for at, line in changes.items() if at[0] == file):
            lines[number] = line
        with open(f"{base}/src/{file}", "w") as text:
            text.write("\n".join(lines))


def words(crate, libraries):
    """The words of `rattle check` on a crate, over the sources of all crates below it, which are copied to `libraries`."""
    of_kit = {name: ["std", *[it for it in CRATES[name] if it not in CRATES]] for name in [crate, *below(crate)]}
    told = ["--crate-name", crate, "src/lib.rt", "-L", f"dependency={kit()}/rlibs"]
    for name in sorted({"core", *[it for names in of_kit.values() for it in names]}):
        told += ["--extern", f"{name}={kit()}/rlibs/{name}.rlib"]
    for name in below(crate):
        copy(name, f"{libraries}/{name}")
        uses = dict.fromkeys(["core", *of_kit[name], *[it for it in CRATES[name] if it in CRATES]])
        told += ["--lib", f"{name}:{','.join(uses)}={libraries}/{name}/src/lib.rt"]
    return [*told, "--antt-project", f"{kit()}/rattle/logic/antt-project.json", "--logic-built", f"{kit()}/logic_built"]
