#!/usr/bin/env python3
"""Spells the repository's own names as today's Rattle does: words in snake case, types and facts in camel case.

usage: python3 tools/respell.py [TOP] [--list]      once, behind the kit's port.py, on what that wrote

Every name with a dash that specs/ or proofs/ declare gets a new spelling, wherever it stands: in .antt files, in the
clauses of .rt files and, between backquotes, in comments and pages. A name that is only a parameter or a local goes the
same way where no file of the kit's library has it. The paper's own letters and names (T, E, A, U, HO, SHO, AHO, R, Q,
alpha) stay where they stand alone. --list prints the table and writes nothing.
"""
import os
import re
import subprocess
import sys

# the kit's library, beside the page that `rt doc` names
KIT = os.path.join(os.path.dirname(subprocess.check_output(["rt", "doc"], text=True).strip()), "rattle")
TOKEN = re.compile(r"[^\s(){}\[\].,;:\"`@|]+")
HEAD = re.compile(r"^(\s*)((?:(?:unfoldable|abbrev|pub|record|data|module)\s+)*)([^\s(){}\[\].,;:\"`@|]+)((?:\s+[^\s(){}\[\].,;:\"`@|→=]+)*)\s*(:|\()")
# spellings that the rule would not give
ODD = {
    "getD-filled": "get_or_filled",
    "not-Good": "unsound",
}


def files(top, *ends):
    for folder, dirs, names in os.walk(top):
        dirs[:] = sorted(d for d in dirs if d not in ("out", "target", ".git"))
        for n in sorted(names):
            if n.endswith(ends):
                yield os.path.join(folder, n)


def statements(text):
    """The file's declarations, each with its signature as one line."""
    lines = text.split("\n")
    i = 0
    while i < len(lines):
        line = lines[i]
        if line.lstrip().startswith("--"):
            i += 1
            continue
        m = HEAD.match(line)
        if m:
            depth, whole, j = len(m.group(1)), line, i + 1
            while j < len(lines) and lines[j].strip() and len(lines[j]) - len(lines[j].lstrip()) > depth:
                whole += " " + lines[j].strip()
                j += 1
            yield m.group(2).split(), m.group(3), m.group(4).split(), m.group(5), whole
        i += 1


def is_fact(words, colon, whole):
    """Whether the name is a type's or a fact's: a record, data, or what ends in Type."""
    if "record" in words or "data" in words:
        return True
    return bool(re.search(r"(→|:)\s*Type( 0| ℓ|\s*\(.*\))?\s*(=.*)?$", whole.split(" where")[0])) or whole.rstrip().endswith("Type 0")


def spelled(name, fact):
    if name in ODD:
        return ODD[name]
    if fact:
        return "".join(p[:1].upper() + p[1:] for p in name.split("-"))
    if name.upper() == name and re.search(r"[A-Z]{2}", name):
        return name.replace("-", "_")
    return name.lower().replace("-", "_")


def declared(top):
    """Names with a dash that specs/ and the lemma files of proofs/ declare, each with its new spelling."""
    table = {}
    for p in files(os.path.join(top, "crates"), ".antt"):
        if os.path.basename(p) == "Proof.antt":
            continue
        with open(p, encoding="utf-8") as f:
            text = f.read()
        for words, name, more, colon, whole in statements(text):
            for n in [name] + ([] if colon == "(" else more):
                if "-" in n.strip("-") and re.match(r"[A-Za-z]", n) and n not in table:
                    table[n] = spelled(n, n[0].isupper() and is_fact(words, colon, whole))
    return table


def library():
    words = set()
    for p in files(KIT, ".antt"):
        with open(p, encoding="utf-8", errors="replace") as f:
            words.update(t for t in TOKEN.findall(f.read()) if "-" in t)
    return words


def imported(top):
    """Names that the files import from elsewhere than the repository's own crates."""
    own = tuple(f"Rattle.{c}." for c in os.listdir(os.path.join(top, "crates")))
    words = set()
    for p in files(os.path.join(top, "crates"), ".antt", ".rt"):
        with open(p, encoding="utf-8") as f:
            for m in re.finditer(r"\buse ([^\s{;]+)\{([^}]*)\}", f.read()):
                if not m.group(1).startswith(own):
                    words.update(TOKEN.findall(m.group(2)))
    return words


def locals_of(top, table, kit):
    for p in files(os.path.join(top, "crates"), ".antt"):
        if os.path.basename(p) == "Proof.antt":
            continue
        with open(p, encoding="utf-8") as f:
            for line in f:
                if line.lstrip().startswith("--"):
                    continue
                for t in TOKEN.findall(line):
                    if re.match(r"[a-z][A-Za-z0-9']*(-[A-Za-z0-9']+)+$", t) and t not in table and t not in kit:
                        table[t] = spelled(t, False)


def quoted(top, table):
    """What comments and pages call a name that is in snake case already."""
    said = dict(table)
    for p in files(os.path.join(top, "crates"), ".antt"):
        with open(p, encoding="utf-8") as f:
            for _, name, more, colon, _ in statements(f.read()):
                for n in [name] + ([] if colon == "(" else more):
                    if "_" in n.strip("_"):
                        said.setdefault(n.replace("_", "-"), n)
    return said


def turned(text, table):
    return TOKEN.sub(lambda m: table.get(m.group(0), m.group(0)), text)


def in_quotes(text, table):
    return re.sub(r"`[^`\n]*`", lambda m: turned(m.group(0), table), text)


def turn_line(line, table, said, mark):
    at = 0 if line.lstrip().startswith(mark) else line.find(" " + mark + " ")
    if at < 0:
        return turned(line, table)
    return turned(line[:at], table) + in_quotes(line[at:], said)


def main(argv):
    top = os.path.abspath(next((a for a in argv if not a.startswith("--")), "."))
    kit = imported(top)
    table = {n: t for n, t in declared(top).items() if n not in kit}
    locals_of(top, table, kit | library())
    if "--list" in argv:
        for n in sorted(table):
            print(n, table[n])
        return
    said = quoted(top, table)
    for p in list(files(os.path.join(top, "crates"), ".antt", ".rt")) + list(files(top, ".md")):
        with open(p, encoding="utf-8") as f:
            text = f.read()
        mark = {".antt": "--", ".rt": "//"}.get(os.path.splitext(p)[1])
        if mark is None:
            new = in_quotes(text, said)
        else:
            new = "\n".join(turn_line(line, table, said, mark) for line in text.split("\n"))
        if new != text:
            with open(p, "w", encoding="utf-8") as f:
                f.write(new)


if __name__ == "__main__":
    main(sys.argv[1:])
