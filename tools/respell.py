#!/usr/bin/env python3
"""Brings the names that this repository's own antt files declare to the spelling of today's Rattle: words in snake case.

usage: tools/respell.py [--list]

Run once at the top of the repository, right after port.py. A definition, lemma or field in camel case or with dashes
(`exprOf`, `kept-at`) gets underscores (`expr_of`, `kept_at`); what begins with a capital, as a type, a fact or a variant,
keeps it. Names that Rattle makes (goals, steps of a walk) and names of src/ stay. --list prints the table and writes nothing.
"""

import os
import re
import subprocess
import sys

WORD = re.compile(r"[^\s(){}.;,@\"«»\[\]\\`]+")
HEAD = re.compile(r"^(\s*)((?:(?:abbrev|unfoldable|pub)\s+)*)([^\s:][^:]*?) :(?=\s|$)(.*)")
SKIP = re.compile(r"^\s*(use|pub use|mod|pub mod|infix|--|open|unfolding|where|let|ruleset|(?:abbrev |unfoldable |pub )*(?:record|data))\b")
# Two names that the rule would make one: the lemma of a pair gets the ending of a lemma that has a definition's name.
BY_HAND = {
    "after-row": "after_a_row",
    "at-end": "at_the_end",
    "at_test": "at_a_test",
    "isEnd": "is_end_number",
    "isLoop": "is_loop_row",
    "isPick": "is_pick_row",
    "stepBy": "step_along",
    "openBlocks": "blocks_open",
    "part-at": "part_at_lem",
    "allTicks": "ticks_of_all",
    "inAll": "in_all_of",
    "stopsAt": "stops_here",
    "inARow": "in_a_row",
}


def files(root, *ends):
    for folder, dirs, names in os.walk(root):
        dirs[:] = sorted(d for d in dirs if d not in ("out", ".git", "target"))
        for n in sorted(names):
            if n.endswith(ends):
                yield os.path.join(folder, n)


def read(path):
    with open(path, encoding="utf-8") as f:
        return f.read()


def declared(path):
    """The names that a file declares, but for those whose type Rattle makes."""
    for line in read(path).split("\n"):
        if SKIP.match(line):
            continue
        m = HEAD.match(line)
        if not m:
            continue
        names, kind = m.group(3).split(), m.group(4)
        if any(not WORD.fullmatch(n) or n in "→=λ" or n.endswith(":") for n in names) or "=" in names or "→" in names:
            continue
        if re.match(r"\s*(tie|goal|lts)\.", kind):
            continue
        yield from names


def spelled(name):
    if name in BY_HAND:
        return BY_HAND[name]
    if not re.search(r"[a-zA-Z]", name) or "◌" in name:
        return name
    if name[0].isupper():
        head, dash, rest = name.partition("-")
        return head + dash + spelled(rest) if dash and rest else name
    out = re.sub(r"(?<=[a-z0-9])([A-Z])(?=[a-z]|$|[^A-Za-z])", lambda m: "_" + m.group(1).lower(), name)
    out = re.sub(r"(?<=[a-z0-9])([A-Z]+)", lambda m: "_" + m.group(1).lower(), out)
    return re.sub(r"-(?=[A-Za-z])|(?<=[A-Za-z0-9])-(?=[0-9])", "_", out) if re.match(r"[a-z]", out) else out


def table(root):
    """The new spellings, and the names that would still fall together. Of two such names the definition has the plain one, the lemma `_lem`."""
    names, stated = set(), set()
    for p in files(os.path.join(root, "crates"), ".antt"):
        if "/specs/" in p or "/proofs/" in p:
            names.update(declared(p))
        if "/specs/" in p:
            stated.update(declared(p))
    made = {n: spelled(n) for n in names}
    groups = {}
    for n, t in made.items():
        groups.setdefault(t, []).append(n)
    for t, ns in groups.items():
        words = [n for n in ns if n in stated]
        if len(words) != 1:
            words = [n for n in ns if re.search("[a-z][A-Z]", n)]
        if len(ns) > 1 and len(words) == 1:
            made.update({n: t + "_lem" for n in ns if n not in words})
    turned = {n: t for n, t in made.items() if n != t}
    by_new = {}
    for n, t in made.items():
        by_new.setdefault(t, []).append(n)
    return turned, {t: ns for t, ns in by_new.items() if len(ns) > 1}


def turn_code(text, turned):
    return WORD.sub(lambda m: turned.get(m.group(0), m.group(0)), text)


def turn_use(line, turned):
    """A use line names modules before its braces, and they stay."""
    at = line.find("{")
    return line if at < 0 else line[:at] + turn_code(line[at:], turned)


def turn_ticks(text, turned):
    return re.sub(r"`[^`\n]+`", lambda m: turn_code(m.group(0), turned), text)


def borrowed(text, own):
    """The names that a file imports from a library."""
    out = set()
    for path, names in re.findall(r"\buse ([^\s;{]+)\.\{([^}]*)\}", text):
        steps = path.split(".")
        if steps[0] != "Rattle" or len(steps) < 2 or steps[1] not in own:
            out.update(n.split(" as ")[0].strip() for n in names.split(","))
    return out


def turn_antt(text, turned, own=()):
    here = borrowed(text, own)
    turned = {n: t for n, t in turned.items() if n not in here}
    out = []
    for line in text.split("\n"):
        m = re.search(r"(?:^|\s)--(?:\s|$)", line)
        cut = m.start() if m else len(line)
        turn = turn_use if re.match(r"\s*(pub )?use ", line) else turn_code
        out.append(turn(line[:cut], turned) + turn_ticks(line[cut:], turned))
    return "\n".join(out)


def main(argv):
    root = subprocess.run(["git", "rev-parse", "--show-toplevel"], capture_output=True, text=True, check=True).stdout.strip()
    turned, clashes = table(root)
    if "--list" in argv:
        for n in sorted(turned):
            print(n, turned[n])
        for t in sorted(clashes):
            print("clash:", t, *sorted(clashes[t]))
        return 1 if clashes else 0
    if clashes:
        print("respell: names that would fall together:", clashes)
        return 1
    camel = {n: t for n, t in turned.items() if re.search("[a-z0-9][A-Z]", n) and "-" not in n}
    own = set(os.listdir(os.path.join(root, "crates")))
    older = {n: t for n, t in turned.items() if "-" in n or n in camel}
    for p in files(root, ".antt", ".rt", ".edit", ".md"):
        if p.endswith("docs/PORT.md"):
            continue
        old = read(p)
        if p.endswith(".antt"):
            new = turn_antt(old, turned, own)
        elif p.endswith(".md"):
            new = turn_ticks(old, older)
        elif p.endswith(".edit"):
            new = turn_code(old, turned if re.search(r"^file: .*\.antt$", old, re.M) else camel)
        else:
            new = turn_code(old, camel)
        if new != old:
            with open(p, "w", encoding="utf-8") as f:
                f.write(new)
    return 0


if __name__ == "__main__":
    raise SystemExit(main(sys.argv[1:]))
