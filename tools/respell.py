#!/usr/bin/env python3
"""Respells this repository's own definitions, lemmas and constructors after port.py of the kit: words in snake case.

usage: tools/respell.py [--check] [FOLDER]

    codeOf, registersOf, onesLeft  ->  code_of, registers_of, ones_left
    AndNotS, SetVL, ToIOR          ->  and_not_s, set_vl, to_ior          (constructors of the definitions)

Types and modules keep their capitals, and so do the variants of the enums of src/, the functions of src/ and every string. It goes
through specs/, proofs/, the clauses and `ghost use` lines of src/, the texts of must-fail/ and the pages. It prints names that fall together, and
with --check writes nothing. It is run once, after port.py.
"""

import glob
import os
import re
import sys

WORD = r"[^\s(){}.;,@\"«»\[\]\\:`]+"
# Names of registers, which stand beside functions of the same letters; and constructors whose plain spelling another name has.
GIVEN = {
    "A0": "a_0", "Ah": "a_h", "Ai": "a_i", "Aj": "a_j", "Ak": "a_k", "S0": "s_0", "Si": "s_i", "Sj": "s_j", "Sk": "s_k",
    "Bjk": "b_jk", "Tjk": "t_jk", "VL": "vl", "Vi": "v_i", "Vj": "v_j", "Vk": "v_k",
    "None": "holds_none", "One": "holds_one", "Two": "holds_two", "Reads": "reads_words", "Writes": "writes_words", "Status": "s_from_status",
    "below-getD": "below-get_or", "At": "at_place", "All": "all_read", "Good": "line_good", "Bad": "line_bad", "NoParcel": "has_none", "Has": "has_instr",
}

# Lemmas that a function of specs/ now falls together with, by their crate.
LEMMAS = {"memory": ["load_code", "store_code"], "readback": ["row_seen", "digit_at"], "turns": ["goes_on"]}


def is_camel(name):
    return bool(re.match("[a-z]", name) and re.search("[a-z0-9][A-Z]", name))


def snake(name):
    if name in GIVEN:
        return GIVEN[name]
    name = re.sub(r"([A-Z]+)([A-Z][a-z])", r"\1_\2", name)
    name = re.sub(r"([a-z0-9])([A-Z])", r"\1_\2", name)
    return name.lower()


def read(path):
    with open(path, encoding="utf-8", newline="") as f:
        return f.read()


def module(root, path):
    crate, kind, rest = re.fullmatch(r"crates/(\w+)/(specs|proofs)/(.*)\.antt", os.path.relpath(path, root)).groups()
    return f"Rattle.{crate}.{kind}.{rest.replace('/', '.')}"


def defined(text):
    """The constructors of a file, and its functions that begin with a capital and are no types."""
    names, indent = set(), None
    for line in text.split("\n"):
        if re.match(r"\s*--", line) or not line.strip():
            continue
        depth = len(line) - len(line.lstrip())
        if indent is not None and depth > indent:
            m = re.match(rf"\s+((?:{WORD}\s+)+):", line)
            names.update(m[1].split() if m else [])
            continue
        indent = depth if re.match(r"\s*(pub )?data \S+", line) else None
        m = re.match(rf"\s*(?:abbrev )?(?:unfoldable )?(?:pub )?([A-Z]\w*) :(?!.*Type \d)", line)
        if m and indent is None:
            names.add(m[1])
    return {it for it in names if it[0].isupper()}


def main():
    check = "--check" in sys.argv[1:]
    given = [it for it in sys.argv[1:] if it != "--check"]
    root = given[0] if given else "."
    antt = sorted(glob.glob(f"{root}/crates/*/specs/**/*.antt", recursive=True) + glob.glob(f"{root}/crates/*/proofs/**/*.antt", recursive=True))
    own = {module(root, p): defined(read(p)) for p in antt}
    # A page means a variant of src/ or a module where one has the constructor's name.
    variants = {it for p in glob.glob(f"{root}/crates/*/src/**/*.rt", recursive=True) for it in re.findall(r"^    ([A-Z]\w*)\b", read(p), re.M)}
    constructors = set().union(*own.values()) - variants - {it.split(".")[-1] for it in own}
    turned = set()
    for p in antt:
        text = read(p)
        freed = text
        for it in LEMMAS.get(os.path.relpath(p, root).split("/")[1], ()):
            freed = re.sub(rf"(?<![\w.-]){it}(?![\w-])(?!\.)|(?<=[.]){it}(?= )", it + "_lem", freed)
        freed = freed.replace("jkm·Ah", "jkm_a_h")
        new = turn(freed, own, module(root, p), os.path.relpath(p, root))
        turned.update(re.findall(WORD, new))
        put(p, text, new, check)
    for p in [f"{root}/README.md", *sorted(glob.glob(f"{root}/docs/**/*.md", recursive=True))]:
        text = read(p)
        word = lambda w: snake(w[0]) if (is_camel(w[0]) and snake(w[0]) in turned) or (w[0] in constructors and len(w[0]) > 3) else w[0]
        put(p, text, re.sub(r"`[^`\n]+`", lambda m: re.sub(r"[\w-]+", word, m[0]), text), check)
    for p in sorted(glob.glob(f"{root}/crates/*/src/**/*.rt", recursive=True)):
        text = read(p)
        put(p, text, in_clauses(text, own, os.path.relpath(p, root)), check)


def put(path, old, new, check):
    if old != new and not check:
        with open(path, "w", encoding="utf-8", newline="") as f:
            f.write(new)


USE = re.compile(r"^\s*(?:ghost )?(?:pub )?use ([^\s{;]+?)(?:\.\{([^}]*)\})?(?: as (\S+?))?;?\s*$", re.M)


def scope(text, own, here):
    """The names of this file that are to be turned, and the aliases of modules that have such names."""
    names, aliases, clash = set(own.get(here, ())), {}, set()
    for path, listed, alias in USE.findall(text):
        if path in own and not listed:
            aliases[alias or path.split(".")[-1]] = own[path]
            continue
        for it in filter(None, (x.strip() for x in listed.split(","))):
            old, _, new = it.partition(" as ")
            if path in own and old in own[path]:
                if not new:
                    names.add(old)
            elif old in names or new in names:
                clash.add(it)
    return names, aliases, clash


def turn(text, own, here, label):
    names, aliases, clash = scope(text, own, here)
    tokens = set(re.findall(WORD, re.sub(r"--.*|\"[^\"\n]*\"|^(?:pub )?use \S+?(?=\.\{|$| as )", "", text, flags=re.M)))
    here_too = {}
    for it in sorted(names | {x for x in tokens if is_camel(x)}):
        if snake(it) in tokens:
            print(f"{label}: {it} falls together with {snake(it)}")
        if snake(it) in here_too:
            print(f"{label}: {it} falls together with {here_too[snake(it)]}")
        here_too[snake(it)] = it
    for it in sorted(clash):
        print(f"{label}: import of {it}")
    out = []
    for line in text.split("\n"):
        m = USE.match(line)
        if m:
            out.append(turn_use(line, m, own))
        else:
            code, comment = re.match(r"((?:\"[^\"\n]*\"|[^\"])*?)(\s*--.*)?$", line).groups()
            out.append(words(code, names, aliases) + words(comment or "", {x for x in names if len(x) > 4}, {}))
    return "\n".join(out)


def turn_use(line, m, own):
    path, listed, _ = m.groups()
    if not listed:
        return line
    def each(it):
        old, sep, new = it.partition(" as ")
        key = old.strip()
        if path in own and key in own[path]:
            return it.replace(key, snake(key), 1)
        if path.startswith("Rattle.") and is_camel(key):
            it = it.replace(key, snake(key), 1)
        if sep and is_camel(new.strip()):
            it = it.replace(new, snake(new))
        return it
    return line.replace("{" + listed + "}", "{" + ",".join(each(it) for it in listed.split(",")) + "}")


def words(code, names, aliases):
    def one(m):
        before, it = m[1], m[2]
        if before == "." :
            owner = re.search(rf"({WORD})$", code[: m.start()])
            if owner and owner[1] in aliases and it in aliases[owner[1]]:
                return before + snake(it)
            if is_camel(it):
                return before + snake(it)
            return m[0]
        if it in names or is_camel(it):
            return before + snake(it)
        return m[0]
    return re.sub(rf"(\.|(?<![^\s(){{}};,@«»\[\]\\:`\"]))({WORD})", one, code)


def in_clauses(text, own, label):
    names, aliases, clash = scope(text, own, None)
    for it in sorted(clash):
        print(f"{label}: import of {it}")
    out, depth = [], 0
    for line in text.split("\n"):
        m = USE.match(line)
        if m and line.lstrip().startswith("ghost"):
            out.append(turn_use(line, m, own))
            continue
        begins = re.match(r"\s*(requires|ensures|ghost)\b", line)
        if depth == 0 and not begins:
            out.append(line)
            continue
        out.append(words(line, names, aliases))
        depth += line.count("{") - line.count("}")
    return "\n".join(out)


if __name__ == "__main__":
    main()
