#!/usr/bin/env python3
"""Respells the repository's own definitions and lemmas as Rattle's library spells its: words in snake case, types in camel case.

usage: python3 tools/respell.py          at the top of the repository, once, after the toolchain's own script for an older repository

It renames what specs/ and proofs/ define (definitions, lemmas, fields, constructors, local names), wherever a source, a definition, a proof or an edit
speaks of it. Functions, types and fields of src/, names that Rattle makes for a function's goals and names of its library stay. It proves nothing.
"""

import os
import re
import subprocess

NAME = r"[^\s(){}\[\];:,.|⌜⌝λ→≡«»]+"
TOKEN = re.compile(r"(?<![^\s(){}\[\];:,.|⌜⌝λ→≡«»])" + NAME)
MARKS = r"(?:(?:pub|abbrev|unfoldable|data|record|package)\s+)*"
HEAD = re.compile(r"^\s*" + MARKS + r"((?:" + NAME + r"\s+)*?" + NAME + r")(?:\s+[({].*)?\s+:\s")
ALIAS = re.compile(r"\bas (" + NAME + r")")
LOCAL = re.compile(r"\blet\s+(" + NAME + r")|λ\s+\(?((?:" + NAME + r"\s*)+)")
BOUND = re.compile(r"[({]((?:" + NAME + r"\s+)+):\s")

PATTERN = re.compile(r"^\s*((?:" + NAME + r"\s+)+)= ?")
GOAL = re.compile(r"^(returns|loop|invariant|decreases|overflow|underflow|index|ghost)[-\w]* ")

# names of a goal's file that Rattle gives, which stay
GIVEN = re.compile(r":\s*(goal|given|need)\.")

# `result` is what a function returns, in a clause, so the definition of that name takes another
RESULT = [
    (re.compile(r"(?m)^((?:ghost )?use Rattle\.recurrence\.specs\.Recurrence\.\{(?:[^}]*, )?)result(?=[,}])"), r"\1result_of"),
    (re.compile(r"(?<![\w.'-])result(?= F\b| \(F\.| : FormModel)"), "result_of"),
]


def respelt(name):
    if not re.search(r"[^\W\d_]", name) or not ("-" in name or "′" in name or re.match(r"[a-z]+[A-Z]", name)):
        return name
    # a dash within an operator stays: it is the operator's
    parts = re.split(r"(?<=[\w'′ℤ₀-₉])-(?=[\w*+ℤ])", name.replace("′", "'"))
    if name[0].isupper() and len(parts[0]) > 1:
        return parts[0] + "".join(p[0].upper() + p[1:] for p in parts[1:])
    return "_".join(re.sub(r"(?<=[a-z])([A-Z])(?=[a-z])", lambda m: "_" + m.group(1).lower(), p) if p[0].islower() and len(p) > 2 else p for p in parts)


def files(kinds):
    for p in subprocess.run(["git", "ls-files", "-co", "--exclude-standard", "crates"], capture_output=True, text=True, check=True).stdout.splitlines():
        if p.endswith(kinds) and os.path.isfile(p):
            yield p


def of_a_function(path):
    """Whether the file answers a function's goals."""
    return "/proofs/" in path and os.path.basename(path) in ("Answers.antt", "Choices.antt", "Invariants.antt", "Proof.antt")


def code(line):
    return line.split("-- ")[0] if not line.lstrip().startswith("--") else ""


def defined():
    found = set()
    for p in files(".antt"):
        with open(p, encoding="utf-8") as f:
            for line in f:
                line = code(line)
                if line.startswith(("use ", "pub use ")):
                    found.update(ALIAS.findall(line))
                if line.startswith(("use ", "pub use ", "infix")):
                    continue
                if not (of_a_function(p) and GOAL.match(line)):
                    head = HEAD.match(line)
                    if head and not GIVEN.search(line):
                        found.update(head.group(1).split())
                    left = PATTERN.match(line)
                    if left:
                        found.update(n for n in left.group(1).split() if not n.endswith("-requires"))
                for m in LOCAL.finditer(line):
                    found.update((m.group(1) or m.group(2)).split())
                for m in BOUND.finditer(line):
                    found.update(m.group(1).split())
    return {n for n in found if respelt(n) != n}


def library(names):
    """Those of the names that some file imports from the library, and which therefore stay."""
    theirs = set()
    for p in files((".antt", ".rt")):
        with open(p, encoding="utf-8") as f:
            for m in re.finditer(r"(?m)^(?:ghost )?(?:pub )?use ([\w.']+)\.\{([^}]*)\}", f.read()):
                own = os.path.isdir(os.path.join("crates", m.group(1).split(".")[1])) if m.group(1).startswith("Rattle.") else False
                if not own:
                    theirs.update(n.strip() for n in m.group(2).split(","))
    return names & theirs


def main():
    names = defined()
    kept = library(names)
    turned = {n: respelt(n) for n in names - kept}
    used = {}
    for p in files((".antt", ".rt", ".edit")):
        with open(p, encoding="utf-8") as f:
            for n in TOKEN.findall(f.read()):
                used.setdefault(n, set()).add(p)
    for n, new in sorted(turned.items()):
        if new in used:
            print(f"look: {n} becomes {new}, which stands already in {', '.join(sorted(used[new])[:4])}")
    for n in sorted(kept):
        print(f"kept, as the library's: {n}")
    for p in files((".antt", ".rt", ".edit")):
        with open(p, encoding="utf-8") as f:
            text = f.read()
        lines = []
        for line in text.splitlines(keepends=True):
            spoken = line if p.endswith(".antt") else line if re.search(r"ghost|ensures|requires|[◌⌜≡λ]|TheVariants", line) else None
            if spoken is None:
                lines.append(line)
                continue
            said = code(line)
            lines.append(TOKEN.sub(lambda m: turned.get(m.group(0), m.group(0)), said) + line[len(said):])
        after = "".join(lines)
        for pattern, new in RESULT:
            after = pattern.sub(new, after)
        if after != text:
            with open(p, "w", encoding="utf-8") as f:
                f.write(after)
    for n, new in sorted(turned.items()):
        print(f"{n} -> {new}")


if __name__ == "__main__":
    main()
