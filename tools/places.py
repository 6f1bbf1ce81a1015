#!/usr/bin/env python3
"""Counts the places of docs/DESIGN-PASS.md in crates/*/src, tests aside: tools/places.py [COMMIT] [--list]

Without a commit it reads the files as they stand. A place is a line that a pattern finds; what such a line is, a reader judges.
"""
import collections
import glob
import re
import subprocess
import sys

LINES = [
    ("1a an error or an Option in an Option", r"Option<Option<|-> Option<\w*(Refusal|Fault|Question|Error)>"),
    ("1b an error handed on by hand", r"Err\((\w+)\) => (return )?Err\(|^\s*Err\((\w+)\)$|^\s*Err\(\w+\) => Err\(Fault"),
    ("1c an Option or a Result taken apart to be made again", r"^\s*(Some|Ok)\((\w+)\) => (Some|Ok)\(|^\s*None => (Some|None|Ok|Err)\b|let (Some|Ok)\(.*\) = .* else \{$"),
    ("1d a flag beside a value", r"\(bool, |\bminus: bool"),
    ("1e an enum", r"^\s*(pub(\(crate\))? )?enum \w+"),
    ("1f a number for a kind", r"\bkind: u32|\bfn (field_type|of|number)\b"),
    ("3a a while loop", r"^\s*while "),
    ("3b a loop over a range of places", r"^\s*for \w+ in [^{]*\.\."),
    ("3c a loop with its index", r"\.enumerate\(\)"),
    ("3d a loop that only asks, counts, finds or adds", r"^\s*for [^{]*\{$"),
    ("4a equality and order by hand", r"\.number\(\) [=!<]=? .*\.number\(\)|fn precedes|impl Order for|fn sooner|fn is\(self|fn (is_same|is_text)\("),
    ("4b a case by case answer of true or false", r"=> (true|false),"),
    ("4c a conversion by hand", r"Err\(\w+(::\w+)?\((refusal|fault)\)\)|fn (in_u32|in_u64|of|field_type|entitlement_type|as_day)\("),
    ("4d a text chosen by hand", r"-> &'static str"),
    ("6a a length or a place beside a buffer", r"^\s+(pub(\(crate\))? )?(len|next|used|at): usize,"),
    ("7a a switch on which step to run", r"^\s*(match|if let) .*(form|set|kind)\b.*\{$|Form::\w+ =>"),
]


def files(commit):
    if commit is None:
        names = sorted(glob.glob("crates/*/src/*.rt"))
        return [(n, open(n).read()) for n in names if not n.endswith("tests.rt") and "/file_cases/" not in n]
    names = subprocess.run(["git", "ls-tree", "-r", "--name-only", commit, "crates"], capture_output=True, text=True, check=True).stdout.split()
    names = [n for n in names if re.fullmatch(r"crates/\w+/src/\w+\.rt", n) and not n.endswith("tests.rt") and "/file_cases/" not in n]
    return [(n, subprocess.run(["git", "show", f"{commit}:{n}"], capture_output=True, text=True, check=True).stdout) for n in names]


def functions(text):
    """Name and parameter names of each function."""
    for found in re.finditer(r"\bfn (\w+)(?:<[^(]*>)?\(([^)]*)\)", text):
        names = re.findall(r"(\w+): ", found.group(2))
        yield found.group(1), names


def main():
    words = [w for w in sys.argv[1:] if not w.startswith("--")]
    listed = "--list" in sys.argv
    read = files(words[0] if words else None)
    for title, pattern in LINES:
        places = [(n, k, line) for n, text in read for k, line in enumerate(text.splitlines(), 1) if re.search(pattern, line)]
        print(f"{len(places):4} {title}")
        if listed:
            for n, k, line in places:
                print(f"       {n}:{k}: {line.strip()}")
    named = collections.defaultdict(list)
    for n, text in read:
        for name, _ in functions(text):
            if name not in ("fmt", "new", "main", "number", "next", "length"):
                named[name].append(n)
    twins = {name: where for name, where in named.items() if len(where) > 1}
    print(f"{len(twins):4} 2a a function's name that stands in more than one place")
    if listed:
        for name, where in sorted(twins.items()):
            print(f"       {name}: {', '.join(where)}")
    facts = collections.Counter()
    for _, text in read:
        for found in re.finditer(r"^\s+(?:requires|ensures)(?: \w+)? \{ (.*) \}$", text, re.M):
            facts[found.group(1)] += 1
    often = [(fact, count) for fact, count in facts.items() if count > 2]
    print(f"{len(often):4} 5a a fact that stands in three or more clauses, in {sum(c for _, c in often)} clauses")
    if listed:
        for fact, count in sorted(often, key=lambda f: -f[1]):
            print(f"       {count} times: {fact}")
    groups = collections.Counter()
    for n, text in read:
        for _, names in functions(text):
            plain = [x for x in names if x not in ("f",)]
            for i in range(len(plain)):
                for j in range(i + 1, len(plain)):
                    groups[(n.split("/")[1], plain[i], plain[j])] += 1
    together = [(g, c) for g, c in groups.items() if c > 2]
    print(f"{len(together):4} 5b two parameters that stand together in three or more functions of a crate")
    if listed:
        for (crate, a, b), count in sorted(together, key=lambda f: -f[1]):
            print(f"       {count} times in {crate}: {a}, {b}")


main()
