"""How programs for x86-64 are run here, and their instructions counted.

On x86-64 they run as they are, and valgrind counts. Elsewhere Debian's emulator runs
them, with the loader and libraries of the kit, and the plugin counter.c counts.
"""

import functools
import os
import re
import shutil
import subprocess
import sys

HERE = os.path.dirname(os.path.abspath(__file__))
ROOT = os.path.dirname(HERE)
MADE = os.path.join(ROOT, "target", "bench")
COUNTER = os.path.join(MADE, "counter.so")
MACHINE = os.uname().machine
NATIVE = MACHINE == "x86_64"


class Wrong(Exception):
    """Something that can't be measured, in words."""


def prepare():
    """Makes ready what counts: valgrind, or the emulator's plugin."""
    os.makedirs(MADE, exist_ok=True)
    if NATIVE:
        installed("valgrind", "valgrind")
        return
    # CC is the compiler for x86-64, and a plugin is for the machine itself.
    own = shutil.which("cc") or installed("gcc", "gcc", "libc6-dev")
    source = os.path.join(HERE, "counter.c")
    subprocess.run([own, "-O2", "-shared", "-fPIC", "-o", COUNTER, source], check=True)


def installed(tool, *packages):
    """The tool, after its packages are installed if it is missing."""
    if not shutil.which(tool):
        subprocess.run(["apt-get", "update"], stdout=sys.stderr, check=True)
        subprocess.run(["apt-get", "install", "-y", *packages], stdout=sys.stderr, check=True)
    return tool


def output(command, path):
    """What a command writes, with a file as its input."""
    return done(plain() + command, path).stdout


def counted(command, path):
    """What a command writes, and the host instructions of its whole run."""
    ended = done(counting() + command, path)
    return ended.stdout, int(re.search(rb"Collected : (\d+)", ended.stderr).group(1))


def done(command, path):
    with open(path, "rb") as file:
        ended = subprocess.run(command, stdin=file, capture_output=True)
    if ended.returncode:
        said = ended.stderr.decode(errors="replace").strip()
        raise Wrong(f"{' '.join(command)} ended with status {ended.returncode}\n{said}")
    return ended


def plain():
    """What stands before a command that is only run."""
    return [] if NATIVE else [*emulator(), *loader()]


def counting():
    """What stands before a command whose instructions are counted."""
    if NATIVE:
        return ["valgrind", "--tool=callgrind", "--callgrind-out-file=/dev/null"]
    return [*emulator(), "-plugin", COUNTER, *loader()]


def emulator():
    # A processor of some years ago, but without the instruction by which the C library would
    # clear memory there: it is counted once for each byte.
    return ["qemu-x86_64", "-cpu", "Haswell,-erms"]


def loader():
    folder = kit()
    if not folder:
        raise Wrong("rt is missing")
    tools = os.path.join(folder, "toolchain", "lib")
    return [os.path.join(tools, "ld-linux-x86-64.so.2"), "--library-path", tools]


@functools.lru_cache(maxsize=None)
def kit():
    """The folder of the kit, or nothing where there is none."""
    if not shutil.which("rt"):
        return None
    guide = subprocess.run(["rt", "doc"], stdout=subprocess.PIPE, text=True, check=True)
    return os.path.dirname(guide.stdout.strip())
