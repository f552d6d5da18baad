#!/usr/bin/env python3
"""Brings this repository's own definitions and lemmas to today's spelling of words: snake case.

usage: tools/respell.py          at the top of the repository, once, after port.py and before any edit by hand
       tools/respell.py --list   the names that change, old and new, and nothing is written

port.py respells a name of ours only where a library had the same. This does the rest: in the .antt files every lower-case name with a capital
in it or, outside proofs of functions, with a dash, unless a library's module gives it; in the .rt files the same names where clauses cite
them. In a Proof.antt a dash stands in names that Rattle makes, so that only what the file brings in from our modules changes there. Two
names that would fall together in one file are told apart by LAWS. Functions of src/, exported names, strings and outputs stay.
"""

import collections
import os
import re
import sys

TOKEN = re.compile(r"[^\s(){}\[\];,.«»\"λ∷→×⊎≡≢≤<≥+*/%^=∙¬|⟨⟩:?◌↔`]+")
# laws that would fall together with the definition that they are about
LAWS = {n: n.replace("-", "_") + "_is" for n in ("filled-before", "right-length", "loops-in", "ones-before", "ones-after", "end-within", "or-else", "flag-number")}
# the same, in these files and what imports from them: (file, name as port.py left it, new name)
IN_FILE = [
    ("crates/rules/proofs/Demand2.antt", "answer_at", "answer_at_is"),
    ("crates/notification/proofs/Pairs.antt", "answers_by", "answers_by_is"),
    ("crates/rules/proofs/UnitEnd.antt", "ends-at", "ends_at_is"),
    ("crates/rules/proofs/Keys.antt", "same_key", "same_key_is"),
]
# Rattle makes a module specs.contracts, so that no file of specs/ may have that name
MOVED = ("crates/demands/specs/Contracts.antt", "crates/demands/specs/Functions.antt")


def files():
    for folder, dirs, names in os.walk("crates"):
        dirs[:] = sorted(d for d in dirs if d not in ("out", "must-fail"))
        for n in sorted(names):
            if n.endswith((".antt", ".rt")):
                yield os.path.join(folder, n)


def read(p):
    with open(p, encoding="utf-8") as f:
        return f.read()


def uncommented(t):
    return re.sub(r"(?m)(^|(?<=\s))--.*", "", t)


def imports(t):
    """Each name that the text brings in: its module, the name, and the name by which it goes here."""
    for m in re.finditer(r"(?m)^(?:pub |ghost )?use (\S+?)\.\{([^}]*)\}", t):
        for it in m[2].split(","):
            words = it.split(" as ")
            yield m[1], words[0].strip(), words[-1].strip()


def ours(module):
    return module.startswith("Rattle.") and module.split(".")[1] not in ("std", "core", "io", "os", "libc", "std_alloc", "std_collections")


def snake(t):
    return re.sub(r"(?<=[a-z0-9])[A-Z]", lambda m: "_" + m[0].lower(), t.replace("-", "_"))


def names(texts):
    camel, dashed, library = set(), set(), set()
    for p, t in texts.items():
        if not p.endswith(".antt"):
            continue
        library |= {n for m, n, _ in imports(t) if not ours(m)}
        tokens = set(TOKEN.findall(uncommented(t)))
        camel |= {w for w in tokens if re.match(r"[a-z]", w) and re.search(r"[a-z0-9][A-Z]", w)}
        if not p.endswith("/Proof.antt"):
            dashed |= {w for w in tokens if re.match(r"[a-z]", w) and "-" in w}
    given = {n: snake(n) for n in (camel | dashed) - library}
    given.update({n: LAWS[n] for n in LAWS if n in given})
    return given


def module_of(p):
    return "Rattle." + p[len("crates/"):-len(".antt")].replace("/", ".")


def own_names(p, t, given):
    """The names that change in this file."""
    if p.endswith("/Proof.antt"):
        brought = {n for m, n, a in imports(t) if ours(m)} | {a for m, n, a in imports(t) if ours(m)}
        here = {n: s for n, s in given.items() if "-" not in n or n in brought}
    else:
        here = dict(given)
    for at, old, new in IN_FILE:
        if p == at or any(m == module_of(at) and n == old for m, n, _ in imports(t)):
            here[old] = new
        elif old in here and p == at:
            here[old] = new
    return here


def respelled(t, here, dashes):
    def word(m):
        w = m[0]
        return here.get(w, w) if dashes or "-" not in w else w

    return TOKEN.sub(word, t)


def comment_split(line, mark):
    m = re.search(r"(^|\s)" + mark, line)
    return (line, "") if not m else (line[:m.start()], line[m.start():])


def turned_antt(p, t, here):
    out = []
    for line in t.split("\n"):
        code, comment = comment_split(line, "--")
        # in a Proof.antt a field behind a dot is Rattle's
        if p.endswith("/Proof.antt"):
            code = re.sub(r"(?<!\.)" + TOKEN.pattern, lambda m: here.get(m[0], m[0]) if "-" in m[0] or not code[:m.start()].endswith(".") else m[0], code)
            code = respelled(code, {k: v for k, v in here.items() if "-" not in k}, False)
        else:
            code = respelled(code, here, True)
        comment = respelled(comment, here, False)
        comment = re.sub(r"`([^`]*)`", lambda m: "`" + respelled(m[1], here, True) + "`", comment)
        out.append(code + comment)
    return "\n".join(out)


def turned_rt(t, here):
    out = []
    for line in t.split("\n"):
        code, comment = comment_split(line, "//")
        ghost = re.match(r"\s*(ghost use|requires|ensures)\b", code) is not None
        out.append(respelled(code, here, ghost) + respelled(comment, here, False))
    return "\n".join(out)


def fall_together(p, t, here):
    tokens = set(TOKEN.findall(uncommented(t)))
    by_new = collections.defaultdict(set)
    for w in tokens:
        by_new[here.get(w, w)].add(w)
    return [(p, n, sorted(s)) for n, s in by_new.items() if len(s) > 1]


def main():
    texts = {p: read(p) for p in files()}
    given = names(texts)
    if sys.argv[1:] == ["--list"]:
        print("\n".join(f"{o} {n}" for o, n in sorted(given.items())))
        return
    for p, t in texts.items():
        here = own_names(p, t, given)
        for it in fall_together(p, t, here):
            print("look: fall together:", *it)
        new = turned_antt(p, t, here) if p.endswith(".antt") else turned_rt(t, here)
        new = new.replace("Rattle.demands.specs.Contracts", "Rattle.demands.specs.Functions").replace("pub mod Contracts", "pub mod Functions")
        if p == MOVED[0]:
            new = new.replace("use Rattle.unit_end.proofs as unit_end\n", "use Rattle.unit_end.proofs as ends\n").replace("unit_end.unit_end.", "ends.unit_end.")
        if new != t:
            with open(p, "w", encoding="utf-8") as f:
                f.write(new)
    os.rename(*MOVED)


if __name__ == "__main__":
    main()
