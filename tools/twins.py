"""Lists functions of crates/*/src whose bodies are the same but for names, types and numbers.

Usage: twins.py [ROOT] [LEAST]     (defaults: the current folder, and bodies of at least 8 words)
"""
import collections, pathlib, re, sys

root = pathlib.Path(sys.argv[1] if len(sys.argv) > 1 else ".")
least = int(sys.argv[2]) if len(sys.argv) > 2 else 8
HEAD = re.compile(r"^ *(?:pub(?:\(crate\))? )?fn (\w+)", re.M)
WORD = re.compile(r"\b[A-Za-z_]\w*\b|\b\d[\w.]*\b|[^\s\w]")
KEEP = {"if", "else", "match", "for", "in", "while", "loop", "return", "let", "mut", "break", "as", "self"}


def body(text, start):
    """The words of the block that follows a function's clauses."""
    at = re.compile(r"^ *\{$|\) (?:-> [^{]+ )?\{$", re.M).search(text, start)
    if not at:
        return ()
    opened = text.index("{", at.end() - 1)
    depth = 0
    for end in range(opened, len(text)):
        depth += {"{": 1, "}": -1}.get(text[end], 0)
        if depth == 0:
            break
    words = WORD.findall(re.sub(r"//.*", "", text[opened + 1 : end]))
    return tuple(w if w in KEEP or not re.match(r"\w", w) else "n" for w in words)


found = collections.defaultdict(list)
for path in sorted(root.glob("crates/*/src/*.rt")):
    text = path.read_text(encoding="utf-8")
    for head in HEAD.finditer(text):
        words = body(text, head.end())
        if len(words) >= least:
            found[words].append(f"{path.parent.parent.name}: {head.group(1)}")
for words, names in found.items():
    if len(names) > 1:
        print(f"{len(words)} words: " + ", ".join(names))
