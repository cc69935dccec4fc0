#!/usr/bin/env python3
"""Brings the names that this repository declares in specs/ and proofs/ to snake case.

`tools/respell.py [--dry]`, at the top of the repository. A name that begins with a small letter, and has a hyphen or a capital, is
written with underscores: `ratesHold` is `rates_hold`, `check-means` is `check_means`. A lemma that would have the name of the function
that it is about gets `_lem`: `fall-at`, about `fallAt`, is `fall_at_lem`. Names of goals, which the toolchain makes, and names that a
file imports from a library stay. It prints each new name that a file already has for something else.
"""
import collections
import pathlib
import re
import sys

TOKEN = re.compile(r"[^\s(){}\[\];,.:λ→⌜⌝∥@\"`|]+")
DECLARED = re.compile(r"^\s*(?:(?:abbrev|unfoldable|pub|ghost)\s+)*([^\s(){}\[\];,.:\"]+)((?:\s+[^\s:()]+)*)\s*:(?=\s)(.*)$")
KEYWORDS = {"let", "in", "use", "where", "elim", "record", "data", "mod", "rw", "as"}
LIBRARY = re.compile(r"^\s*(?:pub\s+|ghost\s+)*use\s+(?:Rattle\.(?:std|core)\b|borrow\b|native\b|logic\b|lib\b)[^{]*\{([^}]*)\}", re.M)
OWNED = re.compile(r"^\s*(?:pub\s+|ghost\s+)*use\s+([^{;\s]+)(?:\.\{([^}]*)\})?", re.M)


def snake(name):
    name = re.sub(r"(?<=[a-z0-9])([A-Z])", lambda m: "_" + m.group(1).lower(), name)
    name = re.sub(r"([A-Z])", lambda m: m.group(1).lower(), name)
    return name.replace("-", "_")


# Lemmas that port.py has already respelled, and that are named as the function that they are about.
LEMMAS = {
    "crates/flags/specs/Runs.antt": ["read_at"],
    "crates/flags/specs/Untimed.antt": ["raised_at"],
    "crates/moves/specs/Agree.antt": ["read_at"],
    "crates/moves/specs/Steps.antt": ["read_at"],
}


def wants(name):
    return bool(re.match(r"[a-z]", name)) and bool(re.search(r"[A-Z]|[a-z0-9']-[a-z0-9]", name))


def is_answer(path):
    parts = path.parts
    return "proofs" in parts and len(parts) - parts.index("proofs") > 2


def declared(path, text):
    for line in text.split("\n"):
        if line.lstrip().startswith("--"):
            continue
        m = DECLARED.match(line)
        if not m or m.group(1) in KEYWORDS:
            continue
        for name in [m.group(1)] + m.group(2).split():
            yield name, m.group(3).strip()


def main():
    dry = "--dry" in sys.argv
    root = pathlib.Path(".")
    files = [p for p in sorted(root.glob("crates/*/**/*")) if p.suffix in (".antt", ".rt", ".edit") and "out" not in p.parts]
    texts = {p: p.read_text() for p in files}
    names, types = set(), {}
    for p in files:
        if p.suffix != ".antt":
            continue
        for name, kind in declared(p, texts[p]):
            if not wants(name) or re.match(r"(tie|goal|given)\.", kind):
                continue
            names.add(name)
            types.setdefault(name, kind)
    every = {n for p in files if p.suffix == ".antt" for n, k in declared(p, texts[p]) if not re.match(r"(tie|goal|given)\.", k)}
    taken = {snake(n) for n in every if "-" not in n}
    turned_to = {n: snake(n) + ("_lem" if "-" in n and snake(n) in taken else "") for n in names}
    changed = collections.Counter()
    for p in files:
        text = texts[p]
        for lemma in LEMMAS.get(str(p), []):
            text = re.sub(rf"(?<![\w-]){lemma}(?![\w-])", lemma + "_lem", text)
        own = {n for n, _ in declared(p, text)} if p.suffix == ".antt" else set()
        library = {n.strip().split(" as ")[-1] for m in LIBRARY.finditer(text) for n in m.group(1).split(",")}
        goals = {n for n, k in declared(p, text) if re.match(r"(tie|goal|given)\.", k)} if p.suffix == ".antt" else set()
        here = {n for n in names if n not in goals and (n in own or n not in library)}
        present = set(TOKEN.findall(re.sub(r"(--|//).*", "", text)))
        new_names = collections.Counter(turned_to[n] for n in here & present)
        for n in sorted(here & present):
            if p.suffix == ".antt" and (turned_to[n] in present or new_names[turned_to[n]] > 1):
                print(f"together: {p}: {n} and {turned_to[n]}")

        def turned(line):
            def one(m):
                word = m.group(0)
                before = line[: m.start()]
                if word not in here or re.search(r"(^|[\s({])(tie|goal|given)\.$", before):
                    return word
                changed[word] += 1
                return turned_to[word]

            return TOKEN.sub(one, line)

        new = "\n".join(turned(line) for line in text.split("\n"))
        if new != texts[p] and not dry:
            p.write_text(new)
    for n in sorted(names):
        if re.search(r"→\s*Type|^Type", types[n]):
            print(f"a type: {n} : {types[n]}")
    print(f"{len(names)} names, {sum(changed.values())} places")


if __name__ == "__main__":
    main()
