"""What `run` and `store` share: the independent programs, and packs of texts.

A text, a case sheet or one for the assembler or the lister, is a pair here: its
name and its bytes. A pack holds, for each text, a line `@ NAME BYTES` and then
so many bytes.
"""

import os
import subprocess

HERE = os.path.dirname(os.path.abspath(__file__))
ROOT = os.path.dirname(HERE)
BUILT = os.environ.get("CARGO_TARGET_DIR") or os.path.join(ROOT, "target", "peer")


def build():
    """Makes the independent programs, as fast as can be had, not as fast as they can be."""
    subprocess.run([os.path.join(HERE, "build"), "build", "--profile", "quick"], check=True)


def program(name):
    return os.path.join(BUILT, "quick", name)


def output(command, text=b""):
    return subprocess.run(command, input=text, stdout=subprocess.PIPE, check=True).stdout


def made(kind, first, last):
    """The generator's texts of a kind, from seed `first` to seed `last`."""
    return unpack(output([program("generate"), kind, str(first), str(last)]))


def unpack(pack):
    texts, at = [], 0
    while at < len(pack):
        line = pack.index(b"\n", at)
        _, name, length = pack[at:line].split()
        at = line + 1 + int(length)
        texts.append((name.decode(), pack[line + 1 : at]))
    return texts


def packed(texts):
    return b"".join(b"@ %s %d\n%s" % (name.encode(), len(text), text) for name, text in texts)


def answers(texts, by="batch"):
    """The answers of an independent program, in the order of the texts."""
    parts = output([program(by)], packed(texts)).split(b"@ ")[1:]
    found = [part.split(b"\n", 1) for part in parts]
    assert [name.decode() for name, _ in found] == [name for name, _ in texts]
    return [answer for _, answer in found]
