#!/usr/bin/env python3
"""Respells the repository's own definitions and lemmas: words in snake case, types and modules in camel case.

usage: python3 tools/respell.py [--look]     at the top of the repository; --look writes nothing

A definition in camel case, as `valueFrom`, is `value_from`. In the name of a lemma a dash stays where names of two definitions
meet, as in `length-copies`; elsewhere, and in members of records and data, it is `_`. A lemma that would have the name of a
definition ends in `_lem`. Types and modules keep their names, as do constructors in camel case, which are variants of the
Rust, and all names of Rattle source: functions, constants, fields and variants, what is exported to C, texts and inputs.
Names of the library and those that the prover makes are not touched.
"""

import os
import re
import sys

HEAD = re.compile(r"^(\s*)((?:(?:abbrev|unfoldable|pub) )*)([^\s:(){}\[\].,;\"@|]+) :(?!=)(?: |$)")
NAMED = re.compile(r"^\s*(?:(?:abbrev|unfoldable|pub) )*(?:data|record|ruleset)(?: pub)? ([^\s:(){}\[\].,;\"@|]+)")
TOKEN = re.compile(r"[^\s(){}\[\].,;:\"@|`⌜⌝]+")
STRING = re.compile(r'"(?:[^"\\]|\\.)*"')
# words of the library that lemmas' names are made of
WORDS = set("length append take drop map cond replicate sum reverse set get_or".split())
# definitions whose names are everyday words, which a lemma's name has as such
PLAIN = set("all any at one".split())
# definitions that proofs/ makes for itself, of which a lemma has the name but for a dash
OWN = set("arity_by bind_res leaf_at parts_of".split())
# names that the prover reads in a function's folder, and names of operators
KEPT = re.compile(r"^[^A-Za-z]|^(?:returns|loop|invariant|decreases)(?:-|$)|^[A-Z]")


def snake(name):
    return re.sub(r"(?<=[a-z0-9])([A-Z])", lambda m: "_" + m.group(1).lower(), name)


def files(root):
    for folder, dirs, names in os.walk(os.path.join(root, "crates")):
        dirs[:] = sorted(d for d in dirs if d != "out")
        for n in sorted(names):
            yield os.path.join(folder, n)


def pages(root):
    yield os.path.join(root, "README.md")
    for n in sorted(os.listdir(os.path.join(root, "docs"))):
        if n.endswith(".md") and not n.startswith("PORT"):
            yield os.path.join(root, "docs", n)


def shared_file(path, root):
    """Whether other files cite what the file declares: those of specs/, and those of proofs/ itself."""
    parts = os.path.relpath(path, root).split(os.sep)
    return path.endswith(".antt") and len(parts) >= 4 and (parts[2] == "specs" or (parts[2] == "proofs" and len(parts) == 4))


def declared(root):
    """The definitions of specs/, the names that proofs/ declares, and the members of records and data."""
    specs, proofs, members = set(), set(), set()
    for path in files(root):
        if not shared_file(path, root):
            continue
        into = specs if os.sep + "specs" + os.sep in path else proofs
        inside = None
        for line in open(path, encoding="utf-8"):
            line = line.split("--")[0].rstrip()
            if not line:
                continue
            indent = len(line) - len(line.lstrip())
            if inside is not None and indent <= inside:
                inside = None
            m = NAMED.match(line)
            if m:
                into.add(m.group(1))
                inside = indent
                continue
            m = HEAD.match(line)
            if m:
                (into if inside is None else members).add(m.group(3))
    return specs, proofs, members


def camel_case(root):
    """All names in camel case, also those that no line declares: variables, and names after `as`."""
    found = set()
    for path in files(root):
        if path.endswith((".antt", ".rt")):
            for line in open(path, encoding="utf-8"):
                line = STRING.sub("", line.split("--")[0].split("//")[0])
                found |= {t for t in TOKEN.findall(line) if re.fullmatch(r"[a-z][a-z0-9_]*[A-Z]\w*", t)}
    return found


def joined(name, words):
    """The name with a dash where two definitions' names meet, and `_` elsewhere."""
    parts = name.split("-")
    whole = []
    while parts:
        n = next((k for k in range(len(parts), 1, -1) if "_".join(parts[:k]) in words), 1)
        whole.append("_".join(parts[:n]))
        parts = parts[n:]
    out = whole[0]
    for a, b in zip(whole, whole[1:]):
        out += ("-" if a in words and b in words else "_") + b
    return out


def table(root):
    specs, proofs, members = declared(root)
    defined = {snake(n) for n in specs if "-" not in n}
    words = {n for n in defined if len(n) > 1 and n not in PLAIN} | WORDS
    taken = defined | OWN
    turned = {}
    for n in sorted(specs | proofs | members):
        if KEPT.search(n):
            continue
        plain = snake(n).replace("-", "_")
        lemma = n in proofs and n not in specs and snake(n) == n
        if lemma and plain in taken and n not in OWN:
            new = plain + "_lem"
        elif n in members:
            new = plain
        else:
            new = joined(snake(n), words)
        if new != n:
            turned[n] = new
    return turned


def respelled(line, turned, camel):
    """The line of a proof file with its names turned; text in quotes stays. In a comment names in camel case and in back quotes are turned."""

    def turn(t):
        new = turned.get(t.group(0), t.group(0))
        # behind a dot stands a label or a module of a function, which no lemma's name hides
        if new.endswith("_lem") and t.string[:t.start()].endswith("."):
            return t.group(0)
        return new

    i = line.find("--")
    if i < 0 or line[:i].count('"') % 2:
        i = len(line)
    out, at = [], 0
    for m in STRING.finditer(line[:i]):
        out += [TOKEN.sub(turn, line[at:m.start()]), m.group(0)]
        at = m.end()
    return "".join([*out, TOKEN.sub(turn, line[at:i]), said(line[i:], turned, camel)])


def said(text, turned, camel):
    """A comment or a line of a page, where names in camel case and in back quotes are turned."""

    def turn(q):
        names = turned if q.group(0).startswith("`") else camel
        return TOKEN.sub(lambda t: names.get(t.group(0), t.group(0)), q.group(0))

    return re.sub(r"`[^`]*`|[^`]+", turn, text)


def of_source(line, turned, camel):
    """A line of Rattle source: only names in camel case, which no code has."""
    return TOKEN.sub(lambda t: camel.get(t.group(0), t.group(0)), line)


# Lemmas that have the name of a definition which their files do not see: the file, and the name as port.py leaves it
ALONE = {
    "lookups/proofs/Codes.antt": ["code-of"],
    "grammar/proofs/KindLaws.antt": ["kind-at"],
    "grammar/proofs/TableLaws.antt": ["number-at"],
    "rules/proofs/Forest.antt": ["left-at"],
    "rules/proofs/Standing.antt": ["first-of"],
    "arithmetic/proofs/Rows.antt": ["parts-of"],
    "arithmetic/proofs/Adding.antt": ["is-set"],
    "refusals/proofs/Tags.antt": ["number-of"],
}


def alone(root):
    """Renames each such lemma in its file and in those that import it from there."""
    for where, names in ALONE.items():
        crate, _, file = where.split("/")
        module = f"Rattle.{crate}.proofs.{file[:-5]}"
        for path in files(root):
            if not path.endswith(".antt"):
                continue
            text = open(path, encoding="utf-8").read()
            new = text
            for n in names:
                u = n.replace("-", "_")
                imports = re.search(r"(?m)^use " + re.escape(module) + r"\.\{[^}]*(?<![\w-])" + re.escape(u) + r"(?![\w-])", new)
                if path.endswith(os.path.join("crates", *where.split("/"))) or imports:
                    new = re.sub(r"(?<![\w.\-])" + re.escape(u) + r"(?![\w\-])", u + "_lem", new)
            if new != text:
                with open(path, "w", encoding="utf-8") as f:
                    f.write(new)


def way(path, text):
    """How a file's lines are turned."""
    if path.endswith(".md"):
        return said
    source = path.endswith(".rt") or (path.endswith(".edit") and ".rt" in text.split("\n", 1)[0])
    return of_source if source else respelled


def main(argv):
    root = os.getcwd()
    look = "--look" in argv
    turned = table(root)
    for n in camel_case(root):
        turned.setdefault(n, snake(n))
    camel = {a: b for a, b in turned.items() if re.search(r"[a-z][A-Z]", a)}
    changed = 0
    for path in [*files(root), *pages(root)]:
        if not path.endswith((".antt", ".rt", ".edit", ".md")):
            continue
        text = open(path, encoding="utf-8").read()
        turn = way(path, text)
        new = "\n".join(turn(line, turned, camel) for line in text.split("\n"))
        if new != text:
            changed += 1
            if not look:
                with open(path, "w", encoding="utf-8") as f:
                    f.write(new)
    if not look:
        alone(root)
    print(f"{len(turned)} names, {changed} files")
    if look:
        for a in sorted(turned):
            print(a, turned[a])
    return 0


if __name__ == "__main__":
    raise SystemExit(main(sys.argv[1:]))
