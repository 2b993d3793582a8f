#!/usr/bin/env python3
"""Brings the repository's own names to today's spelling: definitions, lemmas, fields and constructors of specs/ and proofs/.

usage: tools/respell.py [--table]      at the top of the repository, right after the toolchain's own script, once

--table prints the old and the new spelling of each name and changes nothing. What turns:
  isRunning      is_running      a word of two humps or more gets underscores
  sound-nine     sound_nine      a dash stays only where it joins two names, as in xs_in-take; a plain word is joined by _
  spaced         Spaced          a fact, that is a definition whose value is a type, is spelled as a type
Names of src/ (functions, types, fields, constants) and of the library stay. So does a name whose new spelling is taken.
"""
import collections
import os
import re
import sys

DECLARED = re.compile(r"^ *(?:(?:abbrev|unfoldable|pub|data|record) +)*([^\s(){}.;,@\"«»:]+) *:(?!\S)(.*)")
WORD = re.compile(r"[^\s(){}.;,@\"«»]+")
HUMP = re.compile(r"(?<=[a-z0-9])(?=[A-Z])")
NAME = re.compile(r"[A-Za-z0-9_'-]+$")


def files(root, ends, part):
    for folder, dirs, names in os.walk(root):
        dirs[:] = sorted(d for d in dirs if d not in ("out", "target", ".git"))
        for name in sorted(names):
            path = os.path.join(folder, name)
            if name.endswith(ends) and part in path:
                yield path


def read(path):
    with open(path, encoding="utf-8") as f:
        return f.read()


def declarations(path):
    """Each name that a file declares, with the text of its signature."""
    lines = read(path).split("\n")
    for at, line in enumerate(lines):
        if line.lstrip().startswith("--") or "tie.Need" in line or "goal." in line:
            continue
        m = DECLARED.match(line)
        if not m:
            continue
        text = m[2]
        indent = len(line) - len(line.lstrip())
        for more in lines[at + 1 :]:
            if not more.strip() or len(more) - len(more.lstrip()) <= indent:
                break
            text += " " + more.strip()
        yield m[1], text, line


def imported():
    """Names that the files take from the library."""
    names = set()
    for path in files("crates", (".antt", ".rt"), "/"):
        for module, items in re.findall(r"^(?:ghost )?use ([^\s{;]+)\.\{([^}]*)\}", read(path), re.M):
            if not re.match(r"Rattle.(?!std\.)", module):
                names.update(w for item in items.split(",") for w in item.strip().split(" as "))
    return names


def of_source():
    """Functions, types, variants and fields of src/."""
    names = set()
    for path in files("crates", ".rt", "/src/"):
        text = re.sub(r"//[^\n]*|\"[^\"\n]*\"", "", read(path))
        names.update(re.findall(r"\bfn (\w+)|", text))
        names.update(re.findall(r"\b(?:struct|enum|const|mod) (\w+)", text))
        names.update(re.findall(r"^ +(?:pub )?(\w+): [^=]+,$", text, re.M))
        names.update(re.findall(r"^    ([A-Z]\w+)(?:\(.*\))?,$", text, re.M))
    return names


def plain(word):
    return HUMP.sub("_", word).lower() if word[:1].islower() else word


def spelled(name, known):
    parts = name.split("-")
    if not all(parts) or not NAME.match(name):
        return name
    new = plain(parts[0])
    for left, right in zip(parts, parts[1:]):
        joins = plain(left) in known and plain(right) in known
        new += ("-" if joins else "_") + plain(right)
    return new


def table():
    own, facts, words = {}, set(), set()
    for path in files("crates", ".antt", "/"):
        if "/specs/" not in path and "/proofs/" not in path:
            continue
        for name, text, line in declarations(path):
            own.setdefault(name, set()).add(path)
            if "-" not in name:
                words.add(plain(name))
            if re.search(r"(^|→) *Type 0$", text.strip()) and "abbrev" in line or "unfoldable" in line and re.search(r"(^|→) *Type 0$", text.strip()):
                facts.add(name)
    kit = imported()
    source = of_source()
    known = words | {n for n in kit if "-" not in n} | source
    rows, taken = {}, set(own) | kit
    for name in sorted(own):
        if name in kit or name in source or not NAME.match(name):
            continue
        if name.endswith("-spec"):
            new = name.replace("-", "_")
        elif name in facts and name[0].islower():
            new = "".join(p[:1].upper() + p[1:] for p in re.split("[-_]", name))
        elif name[0].islower() and ("-" in name or HUMP.search(name)):
            new = spelled(name, known)
        else:
            continue
        if new != name:
            rows[name] = new
    # a lemma that would have its function's name
    for name, new in sorted(rows.items()):
        if "-" in name and sum(v == new for v in rows.values()) > 1:
            rows[name] = new + "_lem"
    lemmas = {new: new + "_lem" for new in rows.values() if new in own and all("/proofs/" in p for p in own[new])}
    twice = collections.Counter(rows.values())
    said = [(name, new) for name, new in sorted(rows.items()) if new in taken and new not in lemmas or twice[new] > 1]
    for name, new in said:
        del rows[name]
    return rows, said, source, {name: (lemmas[name], own[name]) for name in lemmas}


def turn(text, rows):
    return WORD.sub(lambda m: rows.get(m[0], m[0]), text)


def turn_source(text, rows):
    """Ghost text and comments alone: a lower word with a hump or a dash stands nowhere else in src/, but in strings."""
    def part(m):
        if m[0].startswith('"'):
            return m[0]
        return rows.get(m[0], m[0])
    return re.sub(r"\"(?:\\.|[^\"\\\n])*\"|[^\s(){}.;,@\"«»`]+", part, text)


def takes(text, name, where):
    """Whether a file imports a lemma from one of the files that declare it."""
    modules = [os.path.splitext(p)[0].split("/")[1:] for p in where]
    paths = {".".join(["Rattle"] + m) for m in modules}
    return any(m in paths and name in re.split(r"[, ]+", items) for m, items in re.findall(r"^use (\S+)\.\{([^}]*)\}", text, re.M))


def main():
    rows, said, source, lemmas = table()
    if "--table" in sys.argv:
        for name, new in sorted(rows.items()):
            print(f"{name}\t{new}" + ("\t(src)" if new in source else ""))
        for name, new in said:
            print(f"# stays: {name}, since {new} is taken")
        for name, (new, where) in sorted(lemmas.items()):
            print(f"# lemma: {name} to {new} ({', '.join(sorted(where))})")
        return
    for path in files("crates", (".antt", ".rt"), "/"):
        old = read(path)
        here = {name: new for name, (new, where) in lemmas.items() if path in where or takes(old, name, where)}
        new = turn_source(old, rows) if path.endswith(".rt") else turn(old, rows | here)
        if new != old:
            with open(path, "w", encoding="utf-8") as f:
                f.write(new)
    print(f"respell: {len(rows)} names")
    for name, new in said:
        print(f"stays: {name}, since {new} is taken")


if __name__ == "__main__":
    main()
