#!/usr/bin/env python3
# twins.py [COMMIT]: functions of crates/*/src whose bodies are the same but for names, numbers and types: one line a group. Without COMMIT, the
# tree as it is. What it finds is only a place to look at: a field read by its own name is alike too.
import collections, re, subprocess, sys

commit = sys.argv[1:2] or [":"]
listed = subprocess.run(["git", "ls-tree", "-r", "--name-only", commit[0] if commit[0] != ":" else "HEAD", "crates"], capture_output=True, text=True).stdout
groups = collections.defaultdict(list)
for path in (p for p in listed.split() if re.match(r"crates/\w+/src/.*\.rt$", p)):
    text = open(path).read() if commit[0] == ":" else subprocess.run(["git", "show", f"{commit[0]}:{path}"], capture_output=True, text=True).stdout
    text = re.sub(r"//.*", "", text)
    for found in re.finditer(r"^( *)(?:pub )?(?:extern \"C\" )?fn (\w+).*?\n\1\{\n(.*?)\n\1\}", text, re.M | re.S):
        words = re.findall(r"[A-Za-z_]\w*|\d\w*|[^\s\w]", found[3])
        keywords = {"if", "else", "return", "match", "while", "for", "let", "mut", "as", "in", "loop"}
        shape = " ".join(w if w in keywords or not w[0].isalnum() and w[0] != "_" else "x" for w in words)
        if len(words) > 6:
            groups[shape].append(f"{path.split('/')[1]}::{found[2]}")
for names in sorted(groups.values()):
    if len(names) > 1:
        print(len(names), *names)
