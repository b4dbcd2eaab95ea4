#!/usr/bin/env python3
"""Lists the places of src/ that docs/DESIGN-PASS.md counts, point by point: python3 tools/places.py [POINT..]."""
import collections
import glob
import os
import re
import sys

TOP = os.path.dirname(os.path.dirname(os.path.abspath(__file__)))


def sources():
    for path in sorted(glob.glob(os.path.join(TOP, "crates/*/src/**/*.rt"), recursive=True)):
        with open(path, encoding="utf-8") as handle:
            yield os.path.relpath(path, TOP), handle.read()


def code(text):
    return re.sub(r"//[^\n]*", "", text)


def functions(text):
    """Name, line, head up to the body, and body of each function."""
    for start in re.finditer(r"^( *)(?:pub )?(?:extern \"C\" )?fn (\w+)", text, re.M):
        close = text.find("\n" + start.group(1) + "}", start.end())
        piece = text[start.start():close]
        opened = piece.find("\n" + start.group(1) + "{")
        one_line = piece.find(" {\n") if opened < 0 else opened
        head, body = (piece[:one_line], piece[one_line:]) if one_line >= 0 else (piece, "")
        yield start.group(2), text.count("\n", 0, start.start()) + 1, head, body


def signature(head):
    return re.split(r"\n *(?:requires|ensures)", head)[0]


def parameters(head):
    sign = signature(head)
    inner = sign[sign.find("("):]
    return re.findall(r"(\w+): ", inner)


def point_1():
    for path, text in sources():
        plain = code(text)
        for found in re.finditer(r"^(?:pub )?enum (\w+) \{\n(.*?)^\}", plain, re.M | re.S):
            variants = re.findall(r"^    (\w+)", found.group(2), re.M)
            if len(variants) == 2:
                yield path, plain.count("\n", 0, found.start()) + 1, "enum " + found.group(1) + " of two variants"
        for found in re.finditer(r"^(?:pub )?struct (\w+)(?:<[^>]*>)? \{\n(.*?)^\}", plain, re.M | re.S):
            flags = re.findall(r"^    (?:pub )?(refusal|kind|came|\w+): (u32|usize|bool),", found.group(2), re.M)
            flags = [n for n, t in flags if t == "bool" or n in ("refusal", "kind", "came", "latest_open")]
            if flags:
                yield path, plain.count("\n", 0, found.start()) + 1, "struct " + found.group(1) + ": " + ", ".join(flags)
        for found in re.finditer(r"(?:^(?:pub )?const (?!MAX_)\w+: u32 = \d+;\n+){3,}", plain, re.M):
            names = re.findall(r"const (\w+)", found.group(0))
            yield path, plain.count("\n", 0, found.start()) + 1, "numbers " + names[0] + " .. " + names[-1]
        for name, line, head, _ in functions(plain):
            if re.search(r"-> u32$", signature(head).strip()) and "refusal" in head.lower():
                yield path, line, "fn " + name + " answers a refusal number"
            if re.search(r"\bplace_of\b|\bstart_or\b|≡ answer \(", head):
                yield path, line, "fn " + name + " answers a value that says that there is none"


def shape(body):
    tokens = re.findall(r"\w+|[^\w\s]", body)
    words = {"let", "mut", "while", "if", "return", "match", "else", "for", "in", "as", "true", "false"}
    return tuple(t if t in words or not re.match(r"\w", t) else "x" for t in tokens)


def point_2():
    shapes = collections.defaultdict(list)
    names = collections.defaultdict(list)
    for path, text in sources():
        for name, line, _, body in functions(code(text)):
            shapes[shape(body)].append((path, line, name))
            names[name].append((path, line, name))
    for key, group in shapes.items():
        if len(key) > 24 and len(group) > 1:
            yield group[0][0], group[0][1], "same shape: " + ", ".join("%s (%s)" % (n, p.split("/")[1]) for p, _, n in group)
    for name, group in names.items():
        crates = {p.split("/")[1] for p, _, _ in group}
        if len(crates) > 1 and name not in ("main", "from", "fmt", "try_from", "new"):
            yield group[0][0], group[0][1], "same name: %s in %s" % (name, ", ".join(sorted(crates)))
    constants = collections.defaultdict(list)
    for path, text in sources():
        for found in re.finditer(r"^(?:pub )?const (\w+): [^=]*= ([^;]*);", code(text), re.M):
            constants[found.group(1)].append(path)
    for name, paths in constants.items():
        if len(paths) > 1:
            yield paths[0], 0, "same constant: %s in %s" % (name, ", ".join(p.split("/")[1] for p in paths))


def point_3():
    for path, text in sources():
        plain = code(text)
        for name, line, _, body in functions(plain):
            for found in re.finditer(r"^ *while [^\n]*", body, re.M):
                yield path, line, "%s: %s" % (name, found.group(0).strip())


def point_4():
    pattern = r"(equal|lesser|less|word|\w*_of|\w+_from|\w+_record|\w+_values|\w+_report|\w+_minute|\w+_field|\w+_flag|\w+_fields|form_of|started|refused|not_\w+|no_links|booking_at|write_place|write_decimal|write_digit|write_field|write_bytes|write_word|link_table|choice_record)"
    skip = {"span_of", "row_at", "low_minute", "end_minute"}
    for path, text in sources():
        if path.split("/")[1].endswith("_c"):
            continue
        for name, line, _, _ in functions(code(text)):
            if re.fullmatch(pattern, name) and name not in skip:
                yield path, line, "fn " + name


def point_5():
    facts = collections.defaultdict(list)
    groups = collections.defaultdict(list)
    for path, text in sources():
        for name, line, head, _ in functions(code(text)):
            for clause in re.findall(r"requires(?: \w+)? \{(.*?)\}\n", head + "\n", re.S):
                for fact in set(re.findall(r"(?<![\w.])([A-Z]\w+) \(?\w", clause)):
                    facts[fact].append("%s (%s)" % (name, path.split("/")[1]))
            given = set(parameters(head))
            for group in (("out", "at"), ("ends", "set"), ("events", "free"), ("search", "events", "free"), ("head", "links", "events", "free", "book"), ("stdin", "stdout"), ("book", "size")):
                if set(group) <= given:
                    groups[group].append("%s (%s)" % (name, path.split("/")[1]))
    for fact, where in sorted(facts.items()):
        if len(where) >= 3:
            yield "", 0, "fact %s in %d: %s" % (fact, len(where), ", ".join(where))
    for group, where in groups.items():
        if len(where) >= 3:
            yield "", 0, "parameters %s in %d: %s" % (", ".join(group), len(where), ", ".join(where))


def point_6():
    for path, text in sources():
        plain = code(text)
        for found in re.finditer(r"^(?:pub )?struct (\w+)(?:<[^>]*>)? \{\n(.*?)^\}", plain, re.M | re.S):
            arrays = re.findall(r"(\w+): \[", found.group(2))
            counts = re.findall(r"(count|len|came|number): (?:u32|usize)", found.group(2))
            if arrays and (counts or len(arrays) > 1):
                yield path, plain.count("\n", 0, found.start()) + 1, "struct %s: %s beside %s" % (found.group(1), ", ".join(arrays), ", ".join(counts))
        for name, line, head, _ in functions(plain):
            sign = signature(head)
            if re.search(r": (?:&(?:mut )?)?\[", sign) and re.search(r"\b(?:count|rows|links|used|size): (?:u32|usize)", sign):
                yield path, line, "fn %s: a slice with a length beside" % name


def point_7():
    for path, text in sources():
        plain = code(text)
        for found in re.finditer(r"\bdyn \w+|: fn\(|\[fn\(", plain):
            yield path, plain.count("\n", 0, found.start()) + 1, found.group(0)
        for name, line, _, body in functions(plain):
            for found in re.finditer(r"match (\w+) \{\n *[A-Z_]{3,} =>", body):
                yield path, line, "fn %s: match on numbers" % name


def point_8():
    counts = collections.Counter()
    for path in glob.glob(os.path.join(TOP, "crates/*/proofs/**/*.antt"), recursive=True):
        with open(path, encoding="utf-8") as handle:
            lines = handle.read().splitlines()
        kind = os.path.basename(path)
        counts["files " + kind if kind in ("Answers.antt", "Invariants.antt") else "files of lemmas"] += 1
        counts["lines"] += len(lines)
        if kind == "Answers.antt":
            counts["answers"] += sum(1 for l in lines if re.match(r"(pub|abbrev pub) \S+ : goal\.", l))
    for name, number in sorted(counts.items()):
        yield "", 0, "%s: %d" % (name, number)


def main():
    points = [int(a) for a in sys.argv[1:]] or range(1, 9)
    for point in points:
        places = list(globals()["point_%d" % point]())
        print("point %d: %d" % (point, len(places)))
        for path, line, text in places:
            print("  %s%s" % ("%s:%d " % (path.replace("crates/", "").replace("/src", ""), line) if path else "", text))


main()
