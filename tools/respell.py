#!/usr/bin/env python3
"""Respells the names of definitions and lemmas: words in snake case, types and facts in upper camel case.

usage: python3 tools/respell.py [--list]     at the top of the repository, once; --list only prints the names and what falls together

A name is turned where a file of specs/ or proofs/ declares it. Names that Rattle makes (of goals and invariants), names of other libraries, functions and types of src/ stay.
"""

import os
import re
import sys

TOKEN = re.compile(r"[^\s(){}\[\].,;:\"`⦃⦄]+")
SIGNATURE = re.compile(r"^\s*(?:unfoldable |abbrev )?(?:pub )?(?:unfoldable |abbrev )?(?:(data|record|ruleset) )?([^\s(){}\[\].,;:\"]+(?: [^\s(){}\[\].,;:\"]+)*)(.*)$")
USE = re.compile(r"^use ([^{\s]+?)\.?\{([^}]*)\}")


# Names whose new spelling another name beside them has already: a lemma with its function's name ends in _lem.
APART = {n: n.replace("-", "_") + "_lem" for n in ["cuts-come-back", "deliveries-happen", "lines-determined", "lines-stand", "plan-at", "refused-by", "rest-rule", "rounds-happen", "spoiled-says-nothing", "waiting-come-out"]}
APART["or-else"] = "cell_or_else"


def files(ending):
    for top, dirs, names in os.walk("crates"):
        dirs[:] = sorted(d for d in dirs if d != "out")
        for n in sorted(names):
            if n.endswith(ending):
                yield os.path.join(top, n)


def read(path):
    with open(path, encoding="utf-8") as f:
        return f.read()


def turns(name):
    """Whether a name has an older spelling."""
    if not re.match(r"^[A-Za-z]", name) or not re.match(r"^[A-Za-z0-9'_≤≡∸-]+$", name):
        return False
    return "-" in name.strip("-") or bool(re.match(r"^[a-z][a-z0-9']*[A-Z]", name))


def turned(name):
    if name in APART:
        return APART[name]
    if name[0].isupper():
        return "".join(p[:1].upper() + p[1:] for p in name.split("-"))
    parts = [re.sub(r"(?<=[a-z0-9'])([A-Z])", lambda m: "_" + m.group(1).lower(), p) for p in name.split("-")]
    return "_".join(parts)


def of_a_function(path):
    """Whether the file belongs to one function's proof, whose goals Rattle names."""
    return "/proofs/" in path and path.count("/") > 3


def declared():
    own, made = set(), set()
    for path in files(".antt"):
        for line in read(path).split("\n"):
            if line.lstrip().startswith(("use ", "pub use ", "--", "mod ", "pub mod ", "let ", "λ ", "open ", "elim ", "infix")):
                continue
            made.update(re.findall(r"(?:goal|given)\.([^\s(){},.;]+)", line))
            m = SIGNATURE.match(line)
            if not m or not re.match(r"\s*(?:\{[^}]*\}\s*|\([^)]*\)\s*)*(?::(?!=)|where|deriving)", m.group(3)):
                continue
            if m.group(1) is None and not re.match(r"\s*:", m.group(3)):
                continue
            for n in m.group(2).split():
                own.add(n)
    return own, made


def foreign(text):
    """The names that a file takes from other libraries."""
    out = set()
    for line in text.split("\n"):
        line = line.removeprefix("ghost ")
        m = USE.match(line.removeprefix("pub "))
        if m and not any(m.group(1).startswith("Rattle." + c + ".") for c in os.listdir("crates")):
            for n in m.group(2).split(","):
                out.update(n.strip().split(" as "))
    return out


def is_step(line, m):
    """Whether the name is that of a step of a function's code, as in c.plan-at.ensures."""
    return m.group(0) in APART and line[: m.start()].endswith(" c.") or m.group(0) in APART and line[: m.start()].endswith("(c.")


def main():
    own, made = declared()
    names = {n: turned(n) for n in own if turns(n) and n not in made}
    everything = {}
    for ending in (".antt", ".rt"):
        for path in files(ending):
            for t in set(TOKEN.findall(read(path))):
                everything.setdefault(t, set()).add(path)
    into = {}
    for old, new in names.items():
        into.setdefault(new, set()).add(old)
    for new, olds in sorted(into.items()):
        if len(olds) > 1:
            print("fall together:", new, sorted(olds))
        for old in olds:
            both = everything.get(new, set()) & everything.get(old, set())
            if both:
                print("stands beside:", old, new, sorted(both)[:4])
    if "--list" in sys.argv:
        for old, new in sorted(names.items()):
            print(old, new)
        return
    for ending in (".antt", ".rt", ".edit"):
        for path in files(ending):
            text = read(path)
            keep = foreign(text)
            lines = []
            for line in text.split("\n"):
                comment = line.find("--" if ending == ".antt" else "//")
                body, rest = (line, "") if comment < 0 or (comment > 0 and line[comment - 1] not in " \t") else (line[:comment], line[comment:])
                body = TOKEN.sub(lambda m: m.group(0) if m.group(0) in keep or is_step(body, m) else names.get(m.group(0), m.group(0)), body)
                rest = TOKEN.sub(lambda m: names[m.group(0)] if m.group(0) in names and not re.match(r"^[a-z-]+$", m.group(0)) else m.group(0), rest)
                lines.append(body + rest)
            new = "\n".join(lines)
            if new != text:
                with open(path, "w", encoding="utf-8") as f:
                    f.write(new)


if __name__ == "__main__":
    main()
