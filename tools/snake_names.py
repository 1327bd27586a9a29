#!/usr/bin/env python3
"""Spells the repository's own antt names in snake case, and its own antt types in upper camel case.

usage: tools/snake_names.py            at the top of the repository; a second run changes nothing

A name is the repository's own where a file of specs/ or proofs/ declares it, as a definition, a lemma, a field, a
constructor or a local, and its type is no goal of a function. Names that Rattle makes, and those of its library, keep
their dashes. Comments and strings stay.
"""
import os
import re
import sys

PART = r"[^\s(){}\[\],;.\"|λ@]+"
DASHED = re.compile(r"^\w*[A-Za-z0-9_'ℤℕ]-[A-Za-z0-9_]")
# names that would fall together with a field of src/
APART = {"second-length": "second_pulses"}


def files(ending):
    for folder, below, names in os.walk("crates"):
        below[:] = sorted(it for it in below if it not in ("out", "target", "must-fail"))
        for name in sorted(names):
            if name.endswith(ending):
                yield os.path.join(folder, name)


def read(path):
    with open(path, encoding="utf-8") as f:
        return f.read()


def code_of(line):
    """The line without its comment."""
    return re.split(r"(?:^|\s)--(?:\s|$)|//", line, maxsplit=1)[0]


def declared():
    own, goals, library = set(), set(), set()
    head = re.compile(rf"^\s*(?:(?:unfoldable|abbrev|pub|pattern|record|data) )*({PART})((?: [({{].*?)?) : ?(.*)$")
    data = re.compile(rf"^\s*(?:pub )?(?:record|data) ({PART})")
    field = re.compile(rf"(?:^|[{{;(])\s*(?:pub )?({PART}) (?:=|:)")
    bound = re.compile(rf"(?:let|λ|as) \(?({PART})")
    binder = re.compile(rf"[({{]((?:{PART} )+): ")
    clause = re.compile(rf"^\s*({PART})((?: \S+)*) =")
    for path in files(".antt"):
        for line in read(path).split("\n"):
            line = code_of(line)
            use = re.match(r"^\s*(?:pub )?use (\S+?)\.\{(.*)\}", line)
            if use:
                if use[1].split(".")[0] not in ("Rattle",) or use[1].split(".")[1] == "std":
                    library |= {it.split(" as ")[0].strip() for it in use[2].split(",")}
                own |= {it.split(" as ")[1].strip() for it in use[2].split(",") if " as " in it}
                continue
            found = head.match(line)
            if found:
                (goals if re.match(r"goal\.", found[3]) else own).add(found[1])
            for it in data.findall(line) + bound.findall(line) + field.findall(line):
                own.add(it)
            for names in binder.findall(line):
                own |= set(names.split())
            found = clause.match(line)
            if found:
                own |= {it.strip("(){}") for it in found[2].split() if re.match(r"^[(]*[a-z][\w'-]*[)]*$", it)}
    for path in files(".rt"):
        for line in read(path).split("\n"):
            use = re.match(r"^\s*ghost use (\S+?)\.\{(.*)\};", line)
            if use:
                own |= {it.split(" as ")[1].strip() for it in use[2].split(",") if " as " in it}
    made = re.compile(r"^(invariant|decreases|loop|returns|overflow|bounds|ghost|nonzero|slice|slice_bounds|in-err|in-ok)-|-requires(-\d+)?$|-(init|preserved|smaller)$")
    return {it for it in own - goals - library if DASHED.match(it) and not it.startswith("-") and not made.search(it)}


def spelled(name):
    if name in APART:
        return APART[name]
    if name[0].isupper():
        return "".join(it[0].upper() + it[1:].lower() if it.isupper() else it[0].upper() + it[1:] for it in name.split("-"))
    return name.replace("-", "_").lower() if re.search(r"-[A-Z]{2}", name) else name.replace("-", "_")


def main():
    own = declared()
    if "--list" in sys.argv:
        print("\n".join(f"{it} {spelled(it)}" for it in sorted(own)))
        return
    word = re.compile(PART)
    for path in list(files(".antt")) + list(files(".rt")):
        text = read(path)
        lines = []
        for line in text.split("\n"):
            code = code_of(line)
            new = word.sub(lambda found: spelled(found[0]) if found[0] in own else found[0], code)
            lines.append(new + line[len(code):])
        new = "\n".join(lines).replace("′", "'")
        if new != text:
            with open(path, "w", encoding="utf-8") as f:
                f.write(new)


if __name__ == "__main__":
    main()
