#!/usr/bin/env python3
"""Brings the repository's own definitions and lemmas to snake case: `with-event` becomes `with_event`, `anyBelow` any_below.

Run once, at the top, after port.py of the toolchain. It goes by text over crates/: names that an .antt file declares are
turned there, in the contracts of .rt files and in the must-fail edits. Names of the library, of functions of src/, of
generated modules (those of `tie`) and types keep their spelling. It prints what falls together and what it left.
"""
import collections
import os
import re

STOP = r"\s(){}\[\],;.:\"λ→←↦⌜⌝|⟨⟩@`"
TOKEN = re.compile(rf"[^{STOP}]+")
WORDS = r"(?:pub|abbrev|unfoldable|data|record|field)"
DECLARED = re.compile(rf"^\s*(?:{WORDS}\s+)*([^\s:(){{}}]+)\s+(?:.*\s)?:(?:\s|$)")
# Names that a check makes, not the repository.
MADE = re.compile(r"^(Need-|After-|invariant-|decreases-|returns-\d|the-[A-Z])")


def files(*endings):
    for folder, dirs, names in os.walk("crates"):
        dirs[:] = sorted(d for d in dirs if d != "out")
        for name in sorted(names):
            if name.endswith(endings):
                yield os.path.join(folder, name)


def read(path):
    with open(path, encoding="utf-8") as f:
        return f.read()


def bare(text):
    """The text without comments."""
    return re.sub(r"(?m)(^|\s)(--|//).*$", r"\1", text)


def snake(name):
    if re.match(r"^[a-z]+[A-Z]", name):
        name = re.sub(r"(?<=[a-z])([A-Z])(?=[a-z])", lambda m: "_" + m.group(1).lower(), name)
    return name.replace("-", "_")


def declared():
    """Names that the .antt files declare, but for those that answer a goal under the name that a check gave it."""
    found = collections.defaultdict(set)
    for path in files(".antt"):
        for line in bare(read(path)).splitlines():
            m = DECLARED.match(line)
            if m and not MADE.match(m.group(1)):
                found[m.group(1)].add(path)
    return found


def taken_from_library():
    """For each name, the files that bring it in from the library."""
    found = collections.defaultdict(set)
    for path in files(".antt", ".rt"):
        for m in re.finditer(r"(?m)^(?:ghost )?use ([\w.]+?)\.?\{([^}]*)\}", read(path)):
            top = m.group(1).split(".")
            own = top[0] == "Rattle" and os.path.isdir(os.path.join("crates", top[1] if len(top) > 1 else ""))
            if not own:
                for n in m.group(2).split(","):
                    found[n.strip()].add(path)
    return found


def respelled(text, names, skip):
    return TOKEN.sub(lambda m: snake(m.group(0)) if m.group(0) in names and m.group(0) not in skip else m.group(0), text)


def turn_antt(text, names, skip):
    lines = []
    for line in text.split("\n"):
        m = re.search(r"(^|\s)--", line)
        code, comment = (line[:m.start()], line[m.start():]) if m else (line, "")
        comment = re.sub(r"`[^`]*`", lambda q: respelled(q.group(0), names, skip), comment)
        lines.append(respelled(code, names, skip) + comment)
    return "\n".join(lines)


CLAUSE = re.compile(r"^\s*(?:pub )?(?:ghost|requires|ensures|proof)\b")


def turn_rt(text, names, skip):
    """Only clauses, ghost imports and names in backticks of comments."""
    lines, depth, inside = [], 0, False
    for line in text.split("\n"):
        m = re.search(r"(^|\s)//", line)
        code, comment = (line[:m.start()], line[m.start():]) if m else (line, "")
        comment = re.sub(r"`[^`]*`", lambda q: respelled(q.group(0), names, skip), comment)
        if CLAUSE.match(code):
            inside, depth = True, 0
        if inside:
            depth += code.count("{") - code.count("}")
            code = respelled(code, names, skip)
            if depth <= 0:
                inside = False
        lines.append(code + comment)
    return "\n".join(lines)


def turn_edit(text, names, skip):
    out = []
    for line in text.split("\n"):
        out.append(respelled(line, names, skip) if re.match(r"^(old|new):", line) else line)
    return "\n".join(out)


def main():
    decl = declared()
    lib = taken_from_library()
    names = {n for n in decl if snake(n) != n}
    # what falls together
    users = collections.defaultdict(set)
    for path in files(".antt", ".rt"):
        for t in TOKEN.findall(bare(read(path))):
            users[t].add(path)
    targets = collections.defaultdict(set)
    for n in names:
        targets[snake(n)].add(n)
    for target, froms in sorted(targets.items()):
        if len(froms) > 1:
            print("together:", target, sorted(froms))
        if target in users and target in decl:
            print("there already:", target, sorted(froms), sorted(decl[target])[:2], sorted(decl[sorted(froms)[0]])[:2])
    changed = 0
    for path in files(".antt", ".rt", ".edit"):
        text = read(path)
        skip = {n for n in names if path in lib.get(n, ())}
        turn = turn_antt if path.endswith(".antt") else turn_rt if path.endswith(".rt") else turn_edit
        new = turn(text, names, skip)
        if new != text:
            changed += 1
            with open(path, "w", encoding="utf-8") as f:
                f.write(new)
        if skip and path.endswith(".antt"):
            print("library's here:", path, sorted(skip))
    print(len(names), "names,", changed, "files")


if __name__ == "__main__":
    main()
