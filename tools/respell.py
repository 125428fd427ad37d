#!/usr/bin/env python3
"""Brings the repository's own definitions and lemmas to one spelling: words in snake case, types and facts in camel case.

usage: tools/respell.py [--list]      at the top of the repository, once, after the kit's port.py; --list prints the renamings and changes nothing

A name is renamed where it is declared in specs/ or proofs/ of a crate here, or bound in a proof. Names of the library, and names that the check makes
(goals and steps), keep their spelling, and so do strings, inputs, outputs and the functions of src/.
"""

import os
import re
import subprocess
import sys

STOP = r"\s()\[\]{};,.λ⟦⟧⌜⌝\"↦"
TOKEN = re.compile(rf"(?<![^{STOP}])[^{STOP}]+")
DASHED = re.compile(r"^[^\W\d][\w'≠≡ℕ]*(?:[-≠][\w'≠≡ℕ]+)+$")
DECLARED = re.compile(r"^\s*(?:(?:abbrev|unfoldable|pub|ruleset)\s+)*([^\s(){}:;,.]+(?: [^\s(){}:;,.]+)*) :(?= |$)")
HEADED = re.compile(r"^\s*(?:pub\s+)?(?:record|data)\s+([^\s(){}:]+)")
MADE = re.compile(r"^\s*(?:abbrev )?(?:pub )?(\S+) : (?:goal|need|given|choice)\.")
FROM_MADE = re.compile(r"use Rattle\.\w+\.proofs\.[\w.]*?(?:Goals|Given|Lts)\.\{([^}]*)\}")


def files(top, ends):
    for folder, dirs, names in os.walk(top):
        dirs[:] = sorted(d for d in dirs if d not in ("out", ".git"))
        for name in sorted(names):
            if name.endswith(ends):
                yield os.path.join(folder, name)


def read(path):
    with open(path, encoding="utf-8") as f:
        return f.read()


def code_of(line):
    """A line of antt without its comment."""
    return re.split(r"(?<!\S)--(?!\S*[^\s-])", line)[0] if "--" in line else line


def declared(text):
    names = set()
    for line in text.split("\n"):
        line = code_of(line)
        m = HEADED.match(line)
        if m:
            names.add(m.group(1))
            continue
        if MADE.match(line):
            continue
        m = DECLARED.match(line)
        if m:
            names.update(m.group(1).split())
    return names


def library():
    """The names with a dash that the kit's own libraries declare."""
    kit = os.path.dirname(subprocess.run(["rt", "doc"], stdout=subprocess.PIPE, text=True, check=True).stdout.strip())
    names = set()
    for path in files(f"{kit}/rattle", ".antt"):
        names |= {n for n in declared(read(path)) if DASHED.match(n)}
    return names


def camel(name):
    return "".join(part[:1].upper() + part[1:] for part in re.split(r"[-_]", name))


def spelled(name):
    name = name.replace("≠", "-not-").replace("≡", "-is-")
    if name[:1].isupper():
        return camel(name)
    return name.replace("-", "_")


def main():
    listing = sys.argv[1:] == ["--list"]
    lib = library()
    own, taken, made, imported = set(), set(), set(), set()
    sources = list(files("crates", ".antt"))
    for path in sources:
        text = read(path)
        own |= declared(text)
        for line in text.split("\n"):
            m = MADE.match(line)
            if m:
                made.add(m.group(1))
            if line.startswith("use "):
                m = re.match(r"use (\S+)\.\{(.*)\}", line)
                if m and not re.match(r"Rattle\.(?!std\b)", m.group(1)):
                    imported |= {n.strip() for n in m.group(2).split(",")}
                m = FROM_MADE.match(line)
                if m:
                    made |= {n.strip() for n in m.group(1).split(",")}
    taken = {n for n in own if not DASHED.match(n)}
    own = {n for n in own if DASHED.match(n)}
    clash = sorted(own & (lib | imported))
    renamed = {n: spelled(n) for n in own if n not in imported and n not in made}
    seen = {}
    for n, to in sorted(renamed.items()):
        if to in taken or to in seen:
            print(f"respell: {n} and {seen.get(to, to)} fall together as {to}", file=sys.stderr)
        seen[to] = n
    if listing:
        for n in sorted(renamed):
            print(n, renamed[n])
        print("also in the library:", clash)
        print("own, but also made or imported:", sorted(own & (made | imported)))
        return

    def turn(piece, inside):
        def put(m):
            token, before = m.group(0), piece[: m.start()][-1:]
            if token in renamed:
                return renamed[token]
            if inside and before != "." and DASHED.match(token) and token not in lib and token not in imported and token not in made:
                return spelled(token)
            return token
        return TOKEN.sub(put, piece)

    for path in sources:
        lines = []
        for line in read(path).split("\n"):
            code = code_of(line)
            lines.append(turn(code, True) + line[len(code):] if not line.startswith("use ") else turn(line, False))
        with open(path, "w", encoding="utf-8") as f:
            f.write("\n".join(lines))
    # Clauses, ghost items and imports of the code; strings and comments stay.
    for path in files("crates", ".rt"):
        text = read(path)
        parts = re.split(r"(\"(?:[^\"\\]|\\.)*\"|//[^\n]*)", text)
        parts[::2] = [turn(p, False) for p in parts[::2]]
        with open(path, "w", encoding="utf-8") as f:
            f.write("".join(parts))
    # Edits of definitions, and names in backticks in comments and pages.
    for path in files("crates", ".edit"):
        lines = [line if line.startswith("file:") else turn(line, False) for line in read(path).split("\n")]
        with open(path, "w", encoding="utf-8") as f:
            f.write("\n".join(lines))
    for path in list(files("crates", (".rt", ".antt"))) + list(files("docs", ".md")) + ["README.md"]:
        text = read(path)
        marked = re.sub(r"`([^`\n]+)`", lambda m: "`" + renamed.get(m.group(1), m.group(1)) + "`", text)
        if marked != text:
            with open(path, "w", encoding="utf-8") as f:
                f.write(marked)


main()
