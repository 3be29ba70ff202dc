#!/usr/bin/env python3
"""Spells the names of this repository's own definitions and lemmas in snake case, and types in camel case.

usage: python3 tools/respell.py          at the top of the repository: rewrites the files
       python3 tools/respell.py --list   only lists each old name with its new one, and the names that would fall together

A name counts if a file of specs/ or proofs/ declares it: a definition, a lemma, a field or a constructor.
The names that the checker makes of a function's goals stay, and so do the names of Rust code, strings and prose.
A second run changes nothing.
"""

import os
import re
import sys

TOKEN = re.compile(r"[^\s(){}.;,@\"«»`]+")
QUIET = re.compile(r'"(?:[^"\\\n]|\\.)*"|(?<!\S)--[^\n]*|\{-.*?-\}', re.S)
QUIET_RT = re.compile(r'"(?:[^"\\\n]|\\.)*"|//[^\n]*|b?\'(?:[^\'\\\n]|\\[^\n])\'', re.S)
DECLARED = re.compile(r"(?m)^ *(?:(?:abbrev|pub|private|opaque|inline|unfoldable) +)*([^\s(){}.;,@\"«»:]+)(?: \{[^{}\n]*\})* :(?= )(?! goal\.)")
TYPE = re.compile(r"(?m)^ *(?:(?:pub|abbrev) +)*(?:data|record) +([^\s(){}.;,@\"]+)")
IMPORT = re.compile(r"use Rattle\.(std|core)\.[\w.']+\.\{([^}]*)\}")
# Names that would fall together with another one, and names that no line of their own declares.
OTHER = {
    "all-has": "all_has_lem",
    "attached-by": "attached_by_lem",
    "avl-tree": "avl_tree_of",
    "event-of": "event_of_lem",
    "grown-over": "grown_over_lem",
    "in-sequence": "in_sequence_lem",
    "log-of": "log_of_lem",
    "mark-in": "mark_in_lem",
    "name-at": "name_at_lem",
    "new-node": "new_node_lem",
    "node-of": "node_of_lem",
    "parents-below": "parents_below_lem",
    "parents-in": "parents_in_lem",
    "rightEnd": "right_end_of",
    "rightOf": "right_of",
    "same-part": "same_part_lem",
    "seenTree": "seen_tree",
    "valueOr": "value_or",
    "with-new": "with_new_lem",
}
MADE = ("Answers.antt", "Invariants.antt", "Proof.antt", "Choices.antt")


def files(top, *endings):
    for folder, dirs, names in os.walk(top):
        dirs[:] = sorted(d for d in dirs if d != "out")
        for name in sorted(names):
            if name.endswith(endings):
                yield os.path.join(folder, name)


def read(path):
    with open(path, encoding="utf-8") as f:
        return f.read()


def spelled(name):
    """The name in today's spelling."""
    if name in OTHER:
        return OTHER[name]
    if name[0].isupper():
        if "-" not in name:
            return name
        return "".join(part[:1].upper() + part[1:] for part in name.split("-"))
    if not name[0].isalpha():
        return name
    out = re.sub(r"([a-z0-9])([A-Z])", r"\1_\2", name.replace("-", "_"))
    return out.lower()


def table():
    """Old name to new name, and the pairs that would fall together."""
    declared = set()
    tokens = []
    for path in files("crates", ".antt", ".rt"):
        text = read(path)
        quiet = QUIET if path.endswith(".antt") else QUIET_RT
        tokens.append(set(TOKEN.findall(quiet.sub(" ", text))))
        if not path.endswith(".antt"):
            continue
        if not path.endswith(MADE):
            declared |= set(DECLARED.findall(text)) | set(TYPE.findall(text))
    pairs = {}
    clash = []
    for old in sorted(declared | set(OTHER) & set().union(*tokens)):
        new = spelled(old)
        if new == old:
            continue
        pairs[old] = new
        if any(old in those and new in those for those in tokens):
            clash.append((old, new))
    back = {}
    for old, new in pairs.items():
        back.setdefault(new, []).append(old)
    clash += [tuple(olds) + (new,) for new, olds in back.items() if len(olds) > 1]
    return pairs, clash


def turn(text, pairs, made, quiet, leave):
    def word(match):
        old = match.group(0)
        if old in leave or old not in pairs:
            return old
        if made and match.start() > 0 and match.string[match.start() - 1] == "." and "-" in old:
            return old
        return pairs[old]

    out = []
    at = 0
    for m in quiet.finditer(text):
        out.append(TOKEN.sub(word, text[at : m.start()]))
        said = m.group(0)
        # in a comment only a name that is no word of prose
        if said.startswith(("--", "//")):
            said = TOKEN.sub(lambda n: n.group(0) if "-" in n.group(0) else word(n), said)
        out.append(said)
        at = m.end()
    out.append(TOKEN.sub(word, text[at:]))
    return "".join(out)


def main(argv):
    pairs, clash = table()
    for row in clash:
        print("falls together: " + " ".join(row))
    if argv[1:] == ["--list"]:
        for old, new in pairs.items():
            print(old + "\t" + new)
        return
    for path in files("crates", ".antt", ".rt", ".edit"):
        text = read(path)
        leave = set()
        for m in IMPORT.finditer(text):
            leave |= {w.strip() for w in m.group(2).split(",") if " as " not in w}
        quiet = QUIET if path.endswith(".antt") else QUIET_RT
        new = turn(text, pairs, path.endswith(MADE), quiet, leave)
        if new != text:
            with open(path, "w", encoding="utf-8") as f:
                f.write(new)
    spans = re.compile(r"`[^`\n]+`")
    for path in ["README.md"] + list(files("docs", ".md")):
        if os.path.basename(path).startswith("PORT"):
            continue
        text = read(path)
        new = spans.sub(lambda m: TOKEN.sub(lambda n: pairs.get(n.group(0), n.group(0)), m.group(0)), text)
        if new != text:
            with open(path, "w", encoding="utf-8") as f:
                f.write(new)


main(sys.argv)
