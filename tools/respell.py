#!/usr/bin/env python3
"""Gives the definitions and lemmas of this repository the spelling of today's Rattle, once, after the kit's own port.

A name that specs/ or proofs/ declares is written in snake case, and a type in upper camel case, wherever it stands: `plus-amount` becomes
`plus_amount`, `Same-memory` becomes `SameMemory`. Left as they are: names of the library, goals and steps that Rattle makes, strings, and
comments outside backticks. It stops, and writes nothing, where two names would fall together.
"""

import os
import re
import sys

TOKEN = re.compile(r"[^\s(){}\[\];,.\"`]+")
DECLARED = re.compile(r"^\s*((?:abbrev |unfoldable |pub )*)(?:(record|data) )?([^\s:;{}()]+)(?: [^:=]*)? :(?: |$)(.*)")
LIBRARY = re.compile(r"^use (?:Rattle\.std\.|(?!Rattle\.))\S*?\.\{([^}]*)\}", re.M)
GOAL = re.compile(r"^(?:abbrev )?pub (\S+) : goal\.", re.M)
LET = re.compile(r"\blet ([^\s(){}\[\];,.\"`]+-[^\s(){}\[\];,.\"`]+)(?= )")

# Names that meet a function of src/ that does what the definition says, a local of a test, or a module: they stand in other scopes.
MEETS = set(
    """ReadsBack base_of boards_and_rails copies_left count_limit_of fits_alone four_numbers orders_packable pass_arc paths_determined
    reads_valid reads_written row_memory sole_number take_arc""".split()
)

# A lemma that stands as a parameter of a module.
PARAMETERS = {"Took-one": "took_one"}


def sources(top):
    for folder, dirs, names in os.walk(os.path.join(top, "crates")):
        dirs[:] = sorted(d for d in dirs if d not in ("out", "must-fail"))
        for name in sorted(names):
            if name.endswith((".rt", ".antt")):
                yield os.path.join(folder, name)


def made_by_rattle(path):
    """Whether the file answers the goals of a function, whose steps have names of Rattle's making."""
    return bool(re.search(r"/proofs/.*/", path))


def respelled(name):
    if name[0].isupper():
        return "".join(w[0].upper() + w[1:] for w in name.split("-"))
    name = name.replace("isSome", "is_some").replace("getD", "get_or")
    return name.replace("-", "_")


def pieces(path, text):
    """The text in parts: (part, whether names in it are respelled)."""
    comment = "//" if path.endswith(".rt") else "--"
    strings = r'"(?:[^"\\]|\\.)*"' + (r"|'[^'\\]'" if path.endswith(".rt") else "")
    at = 0
    for m in re.finditer(strings + "|" + re.escape(comment) + r"[^\n]*", text):
        yield text[at:m.start()], True
        part = m.group()
        if part.startswith(comment):
            for i, p in enumerate(part.split("`")):
                yield ("`" if i else "") + p, i % 2 == 1
        else:
            yield part, False
        at = m.end()
    yield text[at:], True


def main():
    top = os.path.join(os.path.dirname(os.path.realpath(__file__)), "..") if len(sys.argv) < 2 else sys.argv[1]
    texts = {}
    for p in sources(top):
        with open(p, encoding="utf-8") as f:
            texts[p] = f.read()
    declared, library, goals = set(), set(), {}
    for p, t in texts.items():
        if not p.endswith(".antt"):
            continue
        bare = re.sub(r"--.*", "", t)
        goals[p] = set(GOAL.findall(bare))
        for ns in LIBRARY.findall(bare):
            library |= {n.split(" as ")[0].strip() for n in ns.split(",")}
        for line in bare.split("\n"):
            m = DECLARED.match(line)
            if m and "goal." not in m.group(4):
                declared.add(m.group(3))
            m = re.match(r"^\s*(?:pub )?(?:record|data) (\S+)", line)
            if m:
                declared.add(m.group(1))
        declared |= set(LET.findall(bare))
    table = {n: respelled(n) for n in declared if ("-" in n or re.match(r"[a-z]+[A-Z]", n)) and n not in library}
    words = {}
    for p, t in texts.items():
        for m in TOKEN.finditer("".join(part for part, code in pieces(p, t) if code)):
            words.setdefault(m.group(), set()).add(p)
    table = {a: b for a, b in (table | PARAMETERS).items() if a != b and a in words}
    clash = [(a, b, sorted(words[b])[:3]) for a, b in sorted(table.items()) if b in words]
    clash = [c for c in clash if c[1] not in MEETS]
    if len(set(table.values())) < len(table) or clash:
        for c in clash:
            print("falls together:", *c)
        seen = {}
        for a, b in table.items():
            if b in seen:
                print("falls together:", a, seen[b])
            seen[b] = a
        raise SystemExit(1)
    for p, t in texts.items():
        inner = made_by_rattle(p)

        def one(m, part):
            n = m.group()
            if n not in table or n in goals.get(p, ()):
                return n
            if inner and m.start() and part[m.start() - 1] == ".":
                return n
            return table[n]

        new = "".join(TOKEN.sub(lambda m, part=part: one(m, part), part) if code else part for part, code in pieces(p, t))
        if new != t:
            with open(p, "w", encoding="utf-8") as f:
                f.write(new)
    print(len(table), "names respelled")


main()
