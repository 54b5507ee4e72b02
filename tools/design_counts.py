"""Counts, in the Rust-like sources and the proofs of a tree, the places that docs/DESIGN-PASS.md speaks of.

    python3 tools/design_counts.py [FOLDER] [--list]

FOLDER is the top of a tree, else this one. --list prints each place.
"""
import collections
import glob
import os
import re
import sys

arguments = [a for a in sys.argv[1:] if not a.startswith("--")]
top = arguments[0] if arguments else "."
listed = "--list" in sys.argv

sources = {f[len(top) :].lstrip("/"): open(f).read() for f in sorted(glob.glob(top + "/crates/*/src/*.rt"))}
proofs = {
    f[len(top) :].lstrip("/"): open(f).read()
    for f in sorted(glob.glob(top + "/crates/*/proofs/**/*.antt", recursive=True))
}


def matches(pattern, files):
    found = []
    for name, text in files.items():
        for number, line in enumerate(text.split("\n"), 1):
            if not line.lstrip().startswith("//") and re.search(pattern, line):
                found.append(f"{name}:{number}: {line.strip()}")
    return found


def parameters(minimum):
    found = []
    for name, text in sources.items():
        for m in re.finditer(r"\bfn (\w+)(?:<[^>]*>)?\(([^)]*)\)", text):
            count = len([p for p in m.group(2).split(",") if p.strip()])
            if count >= minimum:
                found.append(f"{name}: {m.group(1)} has {count} parameters")
    return found


def flags():
    found = []
    for name, text in sources.items():
        for m in re.finditer(r"\bfn (\w+)(?:<[^>]*>)?\(([^)]*)\)", text):
            for p in re.findall(r"(\w+): bool\b", m.group(2)):
                found.append(f"{name}: {m.group(1)}: {p}")
    return found


def uncited():
    """Names of proofs/ that stand in no other line of specs/ and proofs/ of any crate."""
    words = collections.Counter()
    texts = [open(f).read() for f in glob.glob(top + "/crates/*/specs/**/*.antt", recursive=True)] + list(proofs.values())
    for text in texts:
        words.update(re.findall(r"[^\s(){}.,;\[\]]+", text))
    found = []
    for name, text in proofs.items():
        if os.path.basename(name) in ("Answers.antt", "Invariants.antt"):
            continue
        lines = text.split("\n")
        for number, line in enumerate(lines, 1):
            m = re.match(r"\s*(?:abbrev |unfoldable )?(?:pub )?([^\s():{}]+) :(?: |$)", line)
            if m:
                own = len([l for l in lines if re.match(r"\s*(?:abbrev |unfoldable )?(?:pub )?" + re.escape(m.group(1)) + r"(\s|$)", l)])
                if words[m.group(1)] <= own:
                    found.append(f"{name}:{number}: {m.group(1)}")
    return found


counts = [
    ("1a  own enums", matches(r"^(pub )?enum ", sources)),
    ("1b  flags and codes beside a value", matches(r"^\s+(pub )?(\w+: bool|number: u64),", sources)),
    ("1c  numbers for refusals", matches(r"number: \d|refus(ed|al)\(\d|(fault|disorder)\(.*\) -> u64|^\) -> u64|return [3-7];|^\s+\d => |Order::\w+ => \d", sources)),
    ("1d  rows and columns of flags", matches(r"\[bool\]", sources)),
    ("3   loops that count by hand", matches(r"^\s*while ", sources)),
    ("4   comparing, converting and printing by hand", matches(r"fn (push\w*|smaller|larger|at_most|below|compared|decided|by_one|by_two|by_three|standing|or_else|magnitude|print_number|wide|byte_of|row_of|line_of|no_fault|no_trailer|malformed|marks|candidates|rule_at|qualifier_at|interruption_of)\b", sources)),
    ("5   functions of six parameters and more", parameters(6)),
    ("6a  columns of numbers as parameters", matches(r"^\s*\w+: &('a )?(mut )?\[(u32|i64|usize)\]", sources)),
    ("6b  arrays of numbers as fields", matches(r"^\s+(pub )?\w+: \[(u32|i64|usize); \d+\],", sources)),
    ("6c  counts beside arrays", matches(r"^\s+(pub )?(count|points|rules|qualifiers|features|segments|total|ruled|lined): usize,", sources)),
    ("7   flags that choose a step", flags()),
    ("8a  answers", matches(r"^pub \S+ : goal\.", proofs)),
    ("8b  laws that nothing cites", uncited()),
    ("8c  lines of proofs", [l for t in proofs.values() for l in t.split("\n")]),
]
for name, places in counts:
    print(f"{len(places):6}  {name}")
    if listed and not name.startswith("8c"):
        for place in places:
            print("            " + place)
