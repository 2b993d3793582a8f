#!/usr/bin/env python3
"""Lists the places where the code may stand in an older form, by the points of docs/DESIGN-PASS.md.

usage: tools/places.py [POINT..]        at the top of the repository; all points where none is named

Each line is the point, the file and line, and what stands there; the last line of a point is its number of places.
A place is a candidate: docs/DESIGN-PASS.md says what became of it. A line `// Stays: ..` beside a place gives the
reason why it stays.

  1 enums with a case for nothing or for a refusal, structs with a flag beside other fields, numbers for kinds
  2 functions with the same text but for names, types and numbers
  3 loops that count by hand
  4 tests, limits and printing that a derive or a method of std gives
  5 parameters of one name and type that stand together in four functions or more, and clauses in three or more
  6 arrays with a length beside them, and arrays that travel together
  7 chains of tests that choose a function to call
  8 lemmas of proofs/ that nothing cites and no page names, and files of answers
"""
import collections
import pathlib
import re
import sys

NOTHING = {"None", "Nothing", "Quiet", "Full", "Bad", "Refused", "Accepted", "Allowed", "Off", "TurnedDown", "Refuses"}
NUMBERS = r"(?:u8|u16|u32|u64|usize|i32|i64)"
FN = re.compile(r"^( *)(?:pub(?:\([a-z]+\))? )?fn (\w+)", re.M)


def sources():
    for path in sorted(pathlib.Path("crates").glob("*/src/**/*.rt")):
        yield path, path.read_text(encoding="utf-8")


def line_of(text, at):
    return text.count("\n", 0, at) + 1


def functions(text):
    """Each function: its name, its place, its head up to the body, and its body."""
    for m in FN.finditer(text):
        end = re.compile(r"^" + m.group(1) + r"\}", re.M).search(text, m.end())
        if not end:
            continue
        whole = text[m.start():end.end()]
        cut = re.search(r"\n" + m.group(1) + r"\{| \{\n", whole)
        if cut:
            yield m.group(2), m.start(), whole[:cut.start()], whole[cut.end():]


def blocks(text, kind):
    for m in re.finditer(r"^(?:pub(?:\([a-z]+\))? )?" + kind + r" (\w+)[^\n]*\{\n(.*?)^\}", text, re.M | re.S):
        yield m.group(1), m.start(), re.sub(r"//[^\n]*", "", m.group(2))


def point_1():
    for path, text in sources():
        for name, at, body in blocks(text, "enum"):
            cases = re.findall(r"^    (\w+)", body, re.M)
            if NOTHING & set(cases):
                yield path, line_of(text, at), f"enum {name}: {', '.join(cases)}"
        for name, at, body in blocks(text, "struct"):
            fields = re.findall(r"^    (?:pub(?:\([a-z]+\))? )?(\w+): ([^\n]+),$", body, re.M)
            flags = [field for field, of in fields if of == "bool"]
            if flags and len(flags) < len(fields):
                yield path, line_of(text, at), f"struct {name}: flag {', '.join(flags)}"
        for m in re.finditer(r"^(?:pub(?:\([a-z]+\))? )?const (\w+): " + NUMBERS + r" =", text, re.M):
            yield path, line_of(text, m.start()), f"const {m.group(1)}"


def skeleton(body):
    words = re.findall(r"[A-Za-z_]\w*|0x[0-9a-f]+|\d+|\S", re.sub(r"//[^\n]*", "", body))
    keep = {"if", "else", "match", "while", "for", "in", "let", "mut", "return", "as", "self", "true", "false", "loop"}
    return tuple("x" if re.match(r"\w", w) and w not in keep else w for w in words)


def point_2():
    alike = collections.defaultdict(list)
    for path, text in sources():
        for name, at, _, body in functions(text):
            shape = skeleton(body)
            if len(shape) >= 20:
                alike[shape].append((path, line_of(text, at), name))
    for group in alike.values():
        if len(group) > 1:
            names = ", ".join(name for _, _, name in group)
            for path, line, name in group:
                yield path, line, f"fn {name}: same text as {names}"


def point_3():
    for path, text in sources():
        for m in re.finditer(r"^ *while [^\n]*", text, re.M):
            yield path, line_of(text, m.start()), m.group(0).strip()


BY_HAND = [
    (r"^ *if [\w.]+ (?:<|<=|>|>=|==) [\w.:]+ \{ [^{}]+ \} else \{ [^{}]+ \}$", "a limit"),
    (r"=> (?:true|false),\n(?:[^\n]*\n)*?[^\n]*=> (?:true|false),", "a test by cases"),
    (r"^ *if [^\n]*\{\n *(?:return )?(?:true|false);?\n", "a test by cases"),
]


def point_4():
    for path, text in sources():
        for _, at, _, body in functions(text):
            start = text.index(body, at)
            for pattern, what in BY_HAND:
                for m in re.finditer(pattern, body, re.M):
                    yield path, line_of(text, start + m.start()), f"{what}: {m.group(0).strip().splitlines()[0]}"


def point_5():
    groups = collections.Counter()
    clauses = collections.defaultdict(list)
    for path, text in sources():
        for name, at, head, _ in functions(text):
            params = re.findall(r"(\w+): (&?(?:mut )?[\w\[\]<>; ]+)", head.split("->")[0])
            params = [p for p in params if p[0] not in ("out", "rt", "from")]
            for i in range(len(params) - 1):
                groups[tuple(params[i:i + 2])] += 1
            for clause in re.findall(r"(?:requires|ensures)(?: \w+)? \{ (.*?) \}\n", head + "\n"):
                clauses[clause].append((path, line_of(text, at), name))
    for pair, count in sorted(groups.items()):
        if count >= 4:
            yield "crates", 0, f"{pair[0][0]}: {pair[0][1]}, {pair[1][0]}: {pair[1][1]} in {count} functions"
    for clause, where in clauses.items():
        if len(where) >= 3:
            for path, line, name in where:
                yield path, line, f"fn {name}: {clause}"


def point_6():
    for path, text in sources():
        for m in re.finditer(r"^ *(?:pub(?:\([a-z]+\))? )?(\w+): (&?(?:mut )?\[\[?\w+; \w+\]?[^\n,]*),$", text, re.M):
            yield path, line_of(text, m.start()), f"{m.group(1)}: {m.group(2)}"
        for name, at, head, _ in functions(text):
            for m in re.finditer(r"(\w+): (&(?:mut )?\[\w+; \d+\])", head):
                yield path, line_of(text, at), f"fn {name}: {m.group(1)}: {m.group(2)}"


def point_7():
    for path, text in sources():
        for name, at, _, body in functions(text):
            tests = re.findall(r"^ *if [^\n]*\{\n *return [\w:.]+\(", body, re.M)
            if len(tests) >= 3:
                yield path, line_of(text, at), f"fn {name}: {len(tests)} tests"


WORD = r"[^\s(){}.;:,@\"«»\[\]]+"
HEAD = r"( *)(?:(?:abbrev|unfoldable|pub) )*(" + WORD + r")(?= |$)"


def cited():
    """How often each word stands in the crates, but for comments and imports."""
    count = collections.Counter()
    for kind in ("antt", "rt"):
        for path in sorted(pathlib.Path("crates").glob(f"*/**/*.{kind}")):
            if "/out/" not in str(path):
                for line in path.read_text(encoding="utf-8").split("\n"):
                    if not re.match(r" *(?:--|//|use )", line):
                        count.update(re.findall(WORD, re.sub(r"--.*", "", line)))
    return count


def named():
    """The words between backticks in README.md and docs/, but for the pages that list what was changed."""
    pages = [pathlib.Path("README.md")] + sorted(pathlib.Path("docs").glob("**/*.md"))
    text = "\n".join(p.read_text(encoding="utf-8") for p in pages if p.name not in ("DESIGN-PASS.md", "PORT.md"))
    return {word for part in re.findall(r"`([^`]+)`", text) for word in re.findall(WORD, part)}


def point_8():
    count, theorems = cited(), named()
    for path in sorted(pathlib.Path("crates").glob("*/proofs/**/*.antt")):
        if path.name in ("Answers.antt", "Invariants.antt"):
            continue
        lines = path.read_text(encoding="utf-8").split("\n")
        heads = [m.groups() for m in (re.match(HEAD, line) for line in lines) if m]
        for i, line in enumerate(lines):
            m = re.match(HEAD + r" :(?: |$)", line)
            if m and len(m.group(1)) <= 2 and count[m.group(2)] <= heads.count(m.groups()) and m.group(2) not in theorems:
                yield path, i + 1, f"lemma {m.group(2)}"
    for path in sorted(pathlib.Path("crates").glob("*/proofs/**/Answers.antt")):
        yield path, 1, "answers"


def main():
    points = {n: globals()[f"point_{n}"] for n in range(1, 9)}
    for n in [int(a) for a in sys.argv[1:]] or sorted(points):
        places = list(points[n]())
        for path, line, what in places:
            print(f"{n} {path}:{line}: {what}")
        print(f"{n}: {len(places)} places")


main()
