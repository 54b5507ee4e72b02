#!/usr/bin/env python3
"""Spells the repository's own definitions, fields and lemmas in snake case: `floor-of` becomes `floor_of`.

usage: python3 tools/snake_case.py LIBRARY      at the top of the repository; LIBRARY is the folder of the kit's library

Own names are those that a file of specs/ or proofs/ declares, and those that stand there and nowhere in the library. A name that the library has too
is left where a file brings the library's in. What Rattle makes in a function's proof, as `wide-requires`, keeps its dashes; the proof of a
function f is `f_spec`. Names that would fall together are printed, and nothing is written."""
import glob
import os
import re
import sys

WORD = re.compile(r"[^\s(){}\[\];,.\"]+")
DECLARED = re.compile(r"^\s*(?:(?:pub|abbrev|unfoldable|record|data)\s+)*([^\s(){}\[\];,.\"]+)\s*:(?!=)\s*(.*)")
BROUGHT = re.compile(r"^(?:ghost |pub )*use ([\w.]+)\.\{([^}]*)\}")
NUMBER = re.compile(r"^[-\d\\nT]*$")


def plain(line):
    return "" if line.lstrip().startswith("--") else line.split(" -- ")[0]


def read(path):
    with open(path, encoding="utf-8") as f:
        return f.read()


def dashed(text):
    return {w for line in text.split("\n") for w in WORD.findall(plain(line)) if "-" in w and not NUMBER.match(w)}


def library_words(folder):
    words = set()
    for part in ("antt", "logic", "core", "std", "std_alloc", "std_collections", "std_heap", "std_io", "io", "libc", "os"):
        for path in glob.glob(os.path.join(folder, part, "**", "*.antt"), recursive=True):
            words |= dashed(read(path))
    return words


def is_made(statement):
    """Whether a declaration of a function's proof answers a goal, so that its name follows the goal's."""
    return bool(re.match(r"(\{M : Type 1\} → )?(\([^)]*\) → )*(tie|goal)\.(Need|Inv|μ|invariant|measure)", statement))


def ghost_words(path, text):
    """The words that name a ghost thing: neither parts of a path nor fields, nor, in code, the functions, which may share a definition's name."""
    lines = [plain(line) for line in text.split("\n")]
    if not path.endswith(".antt"):
        return {w.strip() for line in lines if (m := BROUGHT.match(line)) for w in m.group(2).split(",")}
    return {m.group() for line in lines for m in WORD.finditer(line) if line[m.end() : m.end() + 1] != "." and line[m.start() - 1 : m.start()] != "."}


def main():
    library = library_words(sys.argv[1])
    crates = {os.path.basename(p) for p in glob.glob("crates/*")}
    statements = sorted(glob.glob("crates/*/specs/*.antt") + glob.glob("crates/*/proofs/*.antt"))
    walks = sorted(set(glob.glob("crates/*/proofs/**/*.antt", recursive=True)) - set(statements))
    others = sorted(glob.glob("crates/*/src/*.rt") + glob.glob("crates/*/must-fail/*.edit"))
    texts = {p: read(p) for p in statements + walks + others}
    declared = {m.group(1) for p in statements for line in texts[p].split("\n") if (m := DECLARED.match(plain(line))) and "-" in m.group(1)}
    own = declared | {w for p in statements for w in dashed(texts[p]) if w not in library}
    own = {w for w in own if not NUMBER.match(w) and not w.startswith("◌")}

    turned, fallen = {}, []
    for path, text in texts.items():
        names = set(own)
        from_library = set()
        for line in text.split("\n"):
            if (m := BROUGHT.match(line)) and not (m.group(1).startswith("Rattle.") and m.group(1).split(".")[1] in crates):
                from_library |= {w.strip() for w in m.group(2).split(",")}
        names -= from_library & library
        if path in walks:
            for line in text.split("\n"):
                if (m := DECLARED.match(plain(line))) and "-" in m.group(1) and not is_made(m.group(2)):
                    names.add(m.group(1))
        here = ghost_words(path, text)
        fallen += [(path, name, new) for name in sorted(here & names) if (new := name.replace("-", "_")) in here]
        # In code a dash between two words is written with blanks, so that a word with a dash is always a name.
        turned[path] = "\n".join(line if line.lstrip().startswith("//") else WORD.sub(lambda m: m.group().replace("-", "_") if m.group() in names else m.group(), line) for line in text.split("\n"))
    for path, name, new in fallen:
        print(f"falls together: {path}: {name} and {new}")
    if fallen:
        sys.exit(1)
    for path, text in turned.items():
        if text != texts[path]:
            with open(path, "w", encoding="utf-8") as f:
                f.write(text)
    print(f"turned: {len(own)} names in {sum(turned[p] != texts[p] for p in texts)} files")


main()
