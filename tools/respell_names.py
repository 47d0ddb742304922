"""Brings this repository's own definitions and lemmas to the spelling of today's Rattle.

Run once, at the top, after the toolchain's own port script: python3 tools/respell_names.py

Words are spelled in snake case (`allBelow` and `all-below` become `all_below`), and a prime is an apostrophe.
Types, records and modules keep their upper camel case. Functions of src/, strings, inputs and outputs keep
their names. Where a lemma would get the name of the definition that it is about, it gets `_lem` behind it.
"""

import collections
import glob
import re
import sys

WORD = re.compile(r"(?<![\w'′\-])[A-Za-z_ℕ][\w'′\-]*")
HEAD = re.compile(r"\s*((?:abbrev|unfoldable)\s+)?(?:pub\s+)?([^\s(){}.;,]+)\s*:(?=\s)")

# Lemmas and locals that already had the snake case spelling of a definition's new name.
IN_PROOFS = {
    "bit_in": "bit_in_lem",
    "in_order": "in_order_lem",
    "left_after": "left_after_lem",
    "is_cut": "cutting",
}


def snake(name):
    name = name.replace("′", "'")
    name = re.sub(r"([a-z0-9])([A-Z])", lambda m: m[1] + "_" + m[2].lower(), name)
    return name.replace("-", "_")


def is_old(name):
    return not name[0].isupper() and snake(name) != name


def renames(definition_files):
    """The new name of each definition, field, constructor and lemma whose spelling is old."""
    functions, others = set(), set()
    for path in definition_files:
        for line in open(path, encoding="utf-8"):
            m = HEAD.match(line)
            if m:
                (functions if m[1] else others).add(m[2])
    taken = {n for n in functions | others if not is_old(n)}
    out = {}
    for name in sorted(functions, key=lambda n: ("-" in n, n)) + sorted(others - functions, key=lambda n: ("-" in n, n)):
        if is_old(name):
            new = snake(name)
            if new in taken:
                new += "_lem"
            if new in taken:
                sys.exit(f"{name}: {new} is taken")
            taken.add(new)
            out[name] = new
    return out


def respell(text, names):
    return WORD.sub(lambda m: names.get(m[0], m[0]), text)


def respell_code(text, names):
    """The same for a .rt file, whose comments are prose."""
    return "".join(
        respell(code, names) + slashes + comment
        for code, slashes, comment in (line.partition("//") for line in text.splitlines(keepends=True))
    )


def rewrite(path, change):
    with open(path, encoding="utf-8") as f:
        old = f.read()
    new = change(old)
    if new != old:
        with open(path, "w", encoding="utf-8") as f:
            f.write(new)
    return new != old


def main():
    definitions = sorted(glob.glob("crates/*/specs/*.antt") + glob.glob("crates/*/proofs/*.antt"))
    in_proofs = sorted(glob.glob("crates/*/proofs/**/*.antt", recursive=True))
    changed = set()
    for path in in_proofs:
        if rewrite(path, lambda t: respell(t, IN_PROOFS)):
            changed.add(path)
    names = renames(definitions)
    for path in sorted(glob.glob("crates/*/specs/*.antt")) + in_proofs:
        if rewrite(path, lambda t: respell(t, names)):
            changed.add(path)
    for path in sorted(glob.glob("crates/*/src/**/*.rt", recursive=True) + glob.glob("crates/*/must-fail/*.edit")):
        if rewrite(path, lambda t: respell_code(t, names)):
            changed.add(path)
    counted = collections.Counter(names.values())
    assert all(n == 1 for n in counted.values())
    for name, new in sorted(names.items()):
        print(f"{name} -> {new}")
    print(f"{len(names)} names, {len(changed)} files")


if __name__ == "__main__":
    main()
