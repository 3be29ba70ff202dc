#!/usr/bin/env python3
"""Prints the places in crates/*/src that docs/DESIGN-PASS.md counts, point by point.

    python3 tools/places.py            the working tree: how many places there are of each pattern
    python3 tools/places.py -v         and each place
    python3 tools/places.py COMMIT     the same of a commit

A pattern finds what may be a place; which of them are one is said on the page.
"""
import re
import subprocess
import sys
from collections import Counter, defaultdict

FLAGS = re.M | re.S

# point, what is looked for, and the pattern
PATTERNS = [
    ("1", "own enums", r"^[ ]*(?:pub(?:\(crate\))? )?enum \w+"),
    ("1", "constants that are numbers for something", r"^[ ]*(?:pub(?:\(crate\))? )?const \w+: u\w+ ="),
    ("1", "kinds given as numbers", r"is_kind\((?:[^()]|\([^()]*\))*, \d+\)|0x[1-7f]000_0000"),
    ("1", "tuples of numbers as answers", r"-> (?:Option<|Result<)?\((?:u8|u32|usize), (?:u8|u32|usize)"),
    ("1", "changes that answer yes or no", r"\bfn \w+(?:<[^>]*>)?\([^{};]*?&mut [^{};]*?\) -> bool"),
    ("1", "results and options taken apart to be made again",
     r"Err\(_\) => (?:Err|0|false|None|return)|None => (?:Err\(|return Err)|Ok\((\w+)\) => Ok\(\1\)|Ok\(\w+\) => Some|"
     r"else \{\s*return (?:None|Err\(|false|0|written|len|\(0)"),
    ("3", "loops over a range", r"\bfor \w+ in (?:\(?\d+|\w+)\.\."),
    ("3", "loops with a test", r"^[ ]*(?:while\b|loop \{)[^\n]*"),
    ("3", "elements fetched behind a test of the length", r"if \w+ [<>]=? (?:self\.)?\w+\.len\(\)[^{]*\{"),
    ("3", "every and any by hand", r"\bfor [^{]*\{(?:(?!\bfor\b)[^}])*?return (?:true|false|Some\(\w+\));"),
    ("4", "impls of equality, order, copying, conversion, printing",
     r"^impl[^{\n]*\b(?:PartialEq|Eq|PartialOrd|Ord|Clone|From<|TryFrom<|FromStr|Display)[^{\n]*"),
    ("4", "functions that compare, convert or print", r"\bfn (?:same_\w+|\w+_told|named_\w+|is_insert|leads_to|precedes|present_bit|shown)\b"),
    ("4", "arms or branches that say true, false, 1 or 0", r"=> (?:true|false),|\{ 1 \} else \{ 0 \}|\{\s*1\s*\} else \{\s*0\s*\}"),
    ("4", "records built again field by field", r"(\w+): (?:self|node|s)\.\1,"),
    ("6", "lists behind a reference to a Vec", r": &(?:'\w+ )?(?:mut )?Vec<"),
    ("6", "fixed lists with a count", r"\[u\w+; \d+\],\s*(?:pub(?:\(crate\))? )?count"),
    ("6", "a length or room beside a list", r"(?:cells|names|nodes): (?:&(?:'\w+ )?(?:mut )?)?(?:\[\w+\]|Vec<\w+>),(?:\s*(?:pub(?:\(crate\))? )?\w+: [^,{}()]+,)*\s*(?:pub(?:\(crate\))? )?(?:len|room): usize"),
    ("6", "links by number in a list", r": Option<u16>,"),
    ("7", "steps picked by a match", r"match \w+ \{\s*\w+::\w+(?:\([^)]*\))? => \w+(?:\.\w+|::\w+)?\([^\n]*\n\s*\w+::\w+(?:\([^)]*\))? => \w+(?:\.\w+|::\w+)?\("),
]


def sources(commit):
    if commit:
        names = subprocess.run(["git", "ls-tree", "-r", "--name-only", commit, "crates"],
                               capture_output=True, text=True, check=True).stdout.split()
    else:
        names = subprocess.run(["git", "ls-files", "-co", "--exclude-standard", "crates"],
                               capture_output=True, text=True, check=True).stdout.split()
    for name in sorted(names):
        if re.fullmatch(r"crates/\w+/src/.*\.rt", name):
            if commit:
                yield name, subprocess.run(["git", "show", f"{commit}:{name}"],
                                           capture_output=True, text=True, check=True).stdout
            else:
                try:
                    yield name, open(name).read()
                except FileNotFoundError:
                    pass


def functions(text):
    """Each function: its name, its head with the clauses, and its body."""
    for m in re.finditer(r"\bfn (\w+)", text):
        start = text.find("\n{", m.start())
        start_in = re.search(r"\n[ ]*\{|\{\n|\{\}", text[m.start():])
        if not start_in:
            continue
        at = m.start() + start_in.start()
        at = text.index("{", at)
        if ";" in re.sub(r"\[[^\]]*\]", "", text[m.start():at]):
            continue
        depth, end = 0, at
        for end in range(at, len(text)):
            depth += {"{": 1, "}": -1}.get(text[end], 0)
            if depth == 0:
                break
        yield m.group(1), text[m.start():at], text[at:end + 1]


def main():
    verbose = "-v" in sys.argv
    commit = next((a for a in sys.argv[1:] if a != "-v"), None)
    files = {name: re.sub(r"//[^\n]*", "", text) for name, text in sources(commit)}
    for point, what, pattern in PATTERNS:
        hits = [(name, text[:m.start()].count("\n") + 1, " ".join(m.group(0).split()))
                for name, text in files.items() for m in re.finditer(pattern, text, FLAGS)]
        print(f"{point}  {what}: {len(hits)}")
        if verbose:
            for name, line, text in hits:
                print(f"     {name}:{line}: {text[:90]}")
    # point 2: functions of one shape: the same text but for names and numbers
    shapes = defaultdict(list)
    for name, text in files.items():
        for fn, _, body in functions(text):
            tokens = re.findall(r"\w+|[^\w\s]", body)
            if len(tokens) > 24 and "assert" not in body:
                shape = " ".join("0" if t[0].isdigit() else "x" if re.match(r"\w", t) else t for t in tokens)
                shapes[shape].append(f"{name}: {fn}")
    groups = [g for g in shapes.values() if len(g) > 1]
    print(f"2  groups of functions of one shape: {len(groups)}")
    if verbose:
        for g in groups:
            print("     " + " = ".join(g))
    # point 5: clauses that stand in three or more contracts of a crate, and groups of three parameters in three functions
    clauses, groups = defaultdict(Counter), defaultdict(Counter)
    for name, text in files.items():
        crate = name.split("/")[1]
        for _, head, _ in functions(text):
            for m in re.finditer(r"(requires|ensures)(?: \w+)? \{(.*?)\}\n", head + "\n", re.S):
                clauses[crate][m.group(1) + " " + " ".join(m.group(2).split())] += 1
            params = re.findall(r"(\w+): (&?(?:'\w+ )?(?:mut )?[\w\[\]<>]+)", re.split(r"\n    (?:requires|ensures)", head)[0])
            if len(params) >= 3:
                groups[crate][tuple(sorted((a, re.sub(r"'\w+ ", "", b)) for a, b in params)[:9])] += 1
    found = [(c, n, t) for c, ts in clauses.items() for t, n in ts.items() if n >= 3]
    print(f"5  clauses that stand in three or more contracts of a crate: {len(found)}")
    if verbose:
        for crate, n, text in found:
            print(f"     {crate}: {n} times: {text[:110]}")
    found = [(c, n, t) for c, ts in groups.items() for t, n in ts.items() if n >= 3]
    print(f"5  parameter lists that stand in three or more functions of a crate: {len(found)}")
    if verbose:
        for crate, n, text in found:
            print(f"     {crate}: {n} times: {', '.join(a + ': ' + b for a, b in text)}")


main()
