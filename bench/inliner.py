"""What the compiler's inliner has left where it is tightest on the way of a step."""

import os
import re
import subprocess
import sys
import tempfile

import host

PROGRAM = os.path.join(host.ROOT, "crates", "sheet")

# The functions on the way of each step, which must all be inlined into one loop.
STEP = r"dispatch::work|dispatch::from_\d+|turns::take_burst"


def left():
    """Units of the inliner's budget, or nothing if they can't be had.

    The program is built as `rt run` builds it, but with a compiler that also says what
    it inlined.
    """
    said = remarks()
    if re.search(rf"'({STEP})' not inlined", said):
        return 0
    found = re.findall(rf"'({STEP})' inlined .*\(cost=(-?\d+), threshold=(\d+)\)", said)
    if not {"dispatch::work", "turns::take_burst"} <= {name for name, _, _ in found}:
        print("What the inliner has left is not known.", file=sys.stderr)
        return None
    return min(int(most) - int(cost) for _, cost, most in found)


def remarks():
    """What the compiler says about inlining in the program `sheet`."""
    kit = host.kit()
    if not kit:
        return ""
    with tempfile.TemporaryDirectory() as folder:
        said = talking(folder, os.path.join(kit, "toolchain"))
        # The first builds the libraries below, and keeps the proofs.
        for command in (["rt", "run"], building(kit, folder)):
            subprocess.run(command, cwd=PROGRAM, stdin=subprocess.DEVNULL, capture_output=True)
        if not os.path.exists(said):
            return ""
        with open(said) as file:
            return file.read()


def talking(folder, tools):
    """Puts the compiler that talks into a folder, and gives the path of what it will say."""
    os.makedirs(os.path.join(folder, "bin"))
    for part in ("lib", "bin/ld.lld", "bin/llvm-ar"):
        os.symlink(os.path.join(tools, part), os.path.join(folder, part))
    said = os.path.join(folder, "said")
    compiler = os.path.join(folder, "bin", "clang")
    with open(compiler, "w") as file:
        file.write(TALKING.format(clang=os.path.join(tools, "bin", "clang"), said=said))
    os.chmod(compiler, 0o755)
    return said


def building(kit, folder):
    """The command that builds the program, in its folder, with the compiler of another folder."""
    uses = listed()
    below = dict.fromkeys(it for name in uses["sheet"] for it in reached(uses, name))
    words = [os.path.join(kit, "bin", "rattle"), "build", "--crate-name", "sheet", "src/main.rt"]
    words += ["--extern", f"std={kit}/rlibs/std.rlib", "-L", f"dependency={kit}/rlibs"]
    for name in uses["sheet"]:
        words += ["--extern", f"{name}=../{name}/out/rlib/{name}.rlib"]
    for name in below:
        words += ["-L", f"dependency=../{name}/out/rlib"]
    words += ["--antt-project", f"{kit}/rattle/logic/antt-project.json"]
    words += ["--logic-built", f"{kit}/logic_built", "--links", "sheet="]
    words += ["--toolchain", folder, "--backend", "llvm", "--incremental", "out/incremental"]
    return words + ["-o", os.path.join(folder, "sheet.o")]


def listed():
    """The crates that each crate uses, by crates.txt."""
    with open(os.path.join(host.ROOT, "crates.txt")) as file:
        lines = [line.split(":") for line in file if ":" in line and not line.startswith("#")]
    return {name.split()[0]: used.split() for name, used in lines}


def reached(uses, name):
    """The crates below one, and itself."""
    return [it for used in uses[name] for it in reached(uses, used)] + [name]


TALKING = """#!/bin/sh
case "$*" in
*-O3*) exec {clang} "$@" -Rpass=inline -Rpass-missed=inline 2>>{said} ;;
esac
exec {clang} "$@"
"""
