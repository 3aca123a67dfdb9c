#!/usr/bin/env python3
"""Brings the repository's own definitions and lemmas to the library's spelling: words in snake case, types and facts in camel case.

Usage, at the top of the repository, once, after /opt/rattle/port/port.py: respell.py
It reads the names that specs/ and proofs/ declare, and rewrites them as whole words in crates/, docs/, tools/ and README.md.
Names that Rattle makes (what stands behind `c.` in a proof, and the goals' names) and names of Rust code stay.
It stops, and writes nothing, where two names would fall together.
"""
import re
import subprocess
import sys

WORD = re.compile(r"[^\s(){}.,;:\[\]\"`|*]+")
DECLARED = re.compile(r"^\s*((?:(?:abbrev|unfoldable|pub|ruleset|data|record)\s+)*)([^\s(){}.,;:\[\]\"]+)((?:\s+\(.*?\)|\s+\{.*?\})*)\s*:(?!=)(.*)$")


def tracked(*paths):
    out = subprocess.run(["git", "ls-files", *paths], capture_output=True, text=True, check=True).stdout
    return out.split("\n")[:-1]


def spelled(name):
    """The new spelling of a name."""
    if "-" not in name:
        return name
    parts = name.split("-")
    if name[0].isupper():
        return "".join(p[:1].upper() + p[1:] for p in parts)
    return "_".join(parts)


def declared(files):
    """Every name that a file of specs/ or proofs/ declares, but the answers to goals."""
    names = set()
    for f in files:
        with open(f, encoding="utf-8") as it:
            for line in it:
                m = DECLARED.match(line)
                if m and not re.match(r"\s*goal\.", m.group(4)):
                    names.add(m.group(2))
    return names


def imported(files):
    """Every name that is imported, under the name that it then has."""
    names = set()
    for f in files:
        with open(f, encoding="utf-8") as it:
            for listed in re.findall(r"(?m)^\s*(?:ghost )?use Rattle[^{}\n]+\{([^}\n]*)\}", it.read()):
                names |= {n.split(" as ")[-1].strip() for n in listed.split(",")}
    return names


def rewrite(text, new, generated):
    """`generated`: what stands right behind `c.` is a name that Rattle made."""

    def one(m):
        word = m.group(0)
        if generated and re.search(r"(?<![\w'-])(?:c|w|g|goal|given)\.$", text[max(0, m.start() - 8) : m.start()]):
            return word
        return new.get(word, word)

    return WORD.sub(one, text)


def main():
    specs = [f for f in tracked("crates") if f.endswith(".antt")]
    names = declared(specs)
    new = {n: spelled(n) for n in names if spelled(n) != n}
    present = names | imported(tracked("crates/*.antt", "crates/*.rt"))
    targets = {}
    together = []
    for old, to in sorted(new.items()):
        if to in targets or (to in present and to not in new):
            together.append(f"{old} -> {to}" + (f", as {targets[to]}" if to in targets else ", which stands already"))
        targets[to] = old
    if together:
        print("respell: names fall together:", *together, sep="\n  ")
        return 1
    changed = 0
    kinds = (".antt", ".rt", ".edit", ".md")
    for f in tracked("crates", "docs", "tools", "README.md"):
        if not f.endswith(kinds) or f == "tools/respell.py":
            continue
        with open(f, encoding="utf-8") as it:
            text = it.read()
        if f.endswith(".md"):
            turned = re.sub(r"`[^`\n]*`", lambda m: rewrite(m.group(0), new, None), text)
        else:
            turned = rewrite(text, new, re.search(r"/proofs/.+/(Answers|Invariants|Proof)\.antt$", f))
        if turned != text:
            with open(f, "w", encoding="utf-8") as it:
                it.write(turned)
            changed += 1
    print(f"respell: {len(new)} names in {changed} files")
    return 0


if __name__ == "__main__":
    sys.exit(main())
