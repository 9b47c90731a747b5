"""Builds the library for C, `libocc.a` and `libocc.so`: of the crate `occ_c`, proved or not, and of `c/occ.c`.

Usage: python3 tools/build_c.py [--proved] [FOLDER]    FOLDER is c/out where none is named

Unproved it is made of the module that tries the crate's tests, as `build_unproved.py` has it: the exports get their names for C. With
--proved it is made of what `rt lib` proved and built in crates/occ_c.
"""
import argparse
import functools
import os
import re
import shutil
import subprocess
import sys
import tempfile

sys.dont_write_bytecode = True
import build_unproved
from repository import TOP, kit, read

EXPORT = re.compile(r'@"occ_c::exports::(occ_rt_\w+)"')
HALF = f"{TOP}/c"
BINUTILS = ("ld", "objcopy", "ar")
TRIED = """use crate::exports::*;
use crate::handles::Handle;
use crate::texts;
use std::test::Fail;

// Calls each export, so that a module for trying has them all.
#[test]
fn calls_each(rt: HostRuntime) -> Result<(), Fail> {
    let alloc = rt.alloc();
    let Ok(desk) = texts::open(alloc, b"") else {
        return Ok(());
    };
    let mut desk = Handle::of(desk);
    let mut out = std::ptr::null_mut();
    let (mut number, mut line, mut verdict) = (0u64, 0u64, 0i32);
    let (mut size, mut count) = (0usize, 0usize);
    let mut room = [0u8; 64];
    let key = [0u8; 8];
CALLS    occ_rt_free(desk);
    Ok(())
}
"""
VALUES = {"alloc": "alloc", "desk: &mut Handle": "&mut desk", "out: &mut *mut Opaque": "&mut out", "u64": "&mut number", "usize": "&mut size", "i32": "&mut verdict"}


def argument(parameter):
    """Some argument for a parameter of an export."""
    name, kind = parameter.split(": ")
    if name in ("alloc", "desk"):
        return VALUES.get(name) or VALUES[parameter]
    return {"&mut *mut Opaque": "&mut out", "&mut u64": f"&mut {'line' if name == 'line' else 'number'}", "&mut usize": f"&mut {'count' if name in ('count', 'rows', 'answers') else 'size'}",
            "&mut i32": "&mut verdict", "&[u8]": "&key", "&mut [u8]": "&mut room", "usize": "0", "u32": "0", "bool": "true"}[kind]


def calls():
    """A call of each export but the one that ends a desk."""
    text = re.sub(r"\s+", " ", read(f"{TOP}/crates/occ_c/src/exports.rt"))
    for name, parameters in re.findall(r'pub extern "C" fn (\w+)\( ?([^()]*?),? ?\) -> i32', text):
        yield f"    let _ = {name}({', '.join(argument(it) for it in parameters.split(', '))});\n"


def module(work):
    """The module of the crate with a call of each export, made in a copy of the crate's folder."""
    folder = f"{work}/occ_c"
    for part in ("src", "specs", "proofs"):
        shutil.copytree(f"{TOP}/crates/occ_c/{part}", f"{folder}/{part}")
    with open(f"{folder}/src/lib.rt", "a") as file:
        file.write("\n#[cfg(test)]\nmod tests;\n")
    with open(f"{folder}/src/tests.rt", "w") as file:
        file.write(TRIED.replace("CALLS", "".join(calls())))
    return build_unproved.take_module("occ_c", True, work, folder)


def unproved_object(target, work):
    """Compiles the crate without a proof."""
    clang = [f"{kit()}/toolchain/bin/clang", f"--sysroot={kit()}/toolchain", *build_unproved.CODE, "-fPIC", "-x", "ir"]
    text = subprocess.Popen([*clang, "-S", "-emit-llvm", "-Xclang", "-disable-llvm-passes", module(work), "-o", "-"], stdout=subprocess.PIPE, text=True)
    with open(f"{work}/renamed.ll", "w") as file:
        for line in build_unproved.without_checks(text.stdout):
            if EXPORT.search(line):
                line = EXPORT.sub(r"@\1", line)
                if line.startswith("define internal"):
                    line = line.replace("define internal", "define", 1)
            elif line.startswith("define") and "@main(" in line:
                line = line.replace("@main(", "@occ_rt_no_main(", 1)
            file.write(line)
    if text.wait():
        raise build_unproved.Unbuilt("the module can't be read")
    done = subprocess.run([*clang, "-c", "-O2", f"{work}/renamed.ll", "-o", target], stderr=subprocess.PIPE, text=True)
    if done.returncode:
        raise build_unproved.Unbuilt(done.stderr)


@functools.lru_cache(None)
def own_part(proved):
    """What the crate's own part of the library is, built where that isn't kept; once for all that a run of a tool builds."""
    if proved:
        own = f"{TOP}/crates/occ_c/out/libocc_c.a"
        if not os.path.exists(own):
            raise build_unproved.Unbuilt("crates/occ_c: `rt lib` has built no library yet\n")
        return own
    folder = f"{TOP}/crates/occ_c/out/unproved-c"
    own = f"{folder}/occ_c-{build_unproved.key_of('occ_c', __file__)}.o"
    with build_unproved.alone(folder), tempfile.TemporaryDirectory(prefix="occ-c-") as work:
        if not os.path.exists(own):
            print("building the library for C without a proof, which takes some minutes ..", file=sys.stderr, flush=True)
            unproved_object(f"{work}/occ_c.o", work)
            build_unproved.keep(f"{work}/occ_c.o", own)
    return own


def lacking():
    """The first of the tools for object files that this machine lacks, if it does."""
    return next((it for it in BINUTILS if not shutil.which(it)), None)


def library(folder, proved=False, compiler="cc", flags=(), shared=True):
    """Puts `libocc.a` and `libocc.so` into a folder; what the crate's own part gives is kept in crates/occ_c/out."""
    os.makedirs(folder, exist_ok=True)
    own = own_part(proved)
    with tempfile.TemporaryDirectory(prefix="occ-c-") as work:
        half = f"{work}/occ.o"
        subprocess.run([compiler, "-std=c11", "-O2", "-g", "-fPIC", "-Wall", "-Wextra", *flags, f"-I{HALF}", "-c", f"{HALF}/occ.c", "-o", half], check=True)
        archives = [f"{kit()}/c/liblibc_c.a", f"{kit()}/c/libos_c.a"]
        whole, out = f"{work}/whole-occ.o", f"{folder}/libocc.a"
        subprocess.run(["ld", "-r", "-o", whole, half, *(["--whole-archive", own, "--no-whole-archive"] if proved else [own]), *archives], check=True)
        subprocess.run(["objcopy", "--wildcard", "--keep-global-symbol=occ_*", whole], check=True)
        subprocess.run(["objcopy", "--wildcard", "--localize-symbol=occ_rt_*", whole], check=True)
        if os.path.exists(out):
            os.remove(out)
        subprocess.run(["ar", "rcs", out, whole], check=True)
        if shared:
            subprocess.run([compiler, "-shared", "-o", f"{folder}/libocc.so", "-Wl,-soname,libocc.so", "-Wl,--gc-sections", whole, "-lpthread", *flags], check=True)


def main():
    words = argparse.ArgumentParser(usage=__doc__)
    words.add_argument("--proved", action="store_true")
    words.add_argument("folder", nargs="?", default=f"{TOP}/c/out", metavar="FOLDER")
    told = words.parse_args()
    try:
        library(told.folder, told.proved)
    except build_unproved.Unbuilt as refused:
        sys.exit(f"{refused}tools/build_c.py: no library was built")


if __name__ == "__main__":
    main()
