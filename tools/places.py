#!/usr/bin/env python3
"""Lists the places in crates/*/src that read like an older language, point by point.

    python3 tools/places.py [-v] [FOLDER]

Each point has patterns; a place is a match of one. -v prints every place. What stands in docs/DESIGN-PASS.md are these counts.
"""
import collections
import glob
import re
import sys

# point: list of (what, regular expression over one file's text)
PATTERNS = {
    "1 Option, Result, enums": [
        ("a case of an own enum beside the others for a refusal, an end or nothing", r"^    (?:Refused|Ends|GoesOn)\b.*,$"),
        ("a flag with a value beside it", r"^    (?:pub(?:\(crate\))? )?\w+: bool,$"),
        ("a number for a kind, a make or a mode", r"\b(?:kind|make|mode|number): u(?:8|32)\b"),
        ("an error or a nothing handed on by a match", r"^ +(?:Err\(\w+\) => (?:return )?Err\(|None => (?:None|Err\()|Err\(_\) => Err\()"),
        ("a nothing turned to an error by let-else", r"else \{\n +return (?:Err\(.*\)|None);\n +\};"),
    ],
    "2 twins": [],  # by name, below
    "3 loops by index": [
        ("a loop over a range", r"\bfor \w+ in [\w(][^{\n]*\.\.[^{\n]*\{"),
        ("a while or a loop", r"^ +(?:while\b.*|loop) \{"),
    ],
    "4 derives, From, TryFrom, Display": [
        ("a conversion by a function of its own", r"\bfn (?:from_number|of|cause|number|places|halves)\("),
        ("a name or a cause by a function of its own", r"\bfn \w+_name\("),
        ("an equality by hand", r"\bfn agreed\w*\("),
        ("a printing by hand of one value", r"\bfn print_(?:call|request|reply|marks)\("),
        ("a From or a Display of an error, which a derive may write", r"^impl(?:<.*>)? (?:From<.*>|fmt::Display) for Trouble\b"),
        ("a plain public type that derives neither equality nor Debug", r"#\[derive\((?:Clone, Copy, )?Drop\)\]\npub(?:\(crate\))? (?:struct|enum) \w+"),
    ],
    "5 facts and parameters": [
        ("selector and form side by side as parameters", r"selector: &?S,\s+form: &?F\b"),
        ("a clause that selector or form stays", r"^ +ensures (?:selector|form) \{ (?:self|bank)\.new\.\w+ ≡"),
        ("a clause that the rest of the bytes is no longer", r"^ +ensures within \{ elim result"),
    ],
    "6 buffers": [
        ("an array in a type or a value", r"\[\w+(?: \{.*\})?; \w+\]"),
        ("a length beside an array", r"\bpub length: usize"),
        ("an enum of one, two or three of the same", r"^    (?:One|Two|Three)\((?:u32(?:, )?)+\),"),
    ],
    "7 switches": [
        ("a match on a number for a kind", r"\bmatch (?:kind|make)\b"),
        ("a comparison of a number for a make or a kind", r"\bif (?:make|kind) (?:==|>)"),
    ],
}

FUNCTION = re.compile(r"\bfn (\w+)(?:<[^(]*>)?\(")


def main():
    arguments = [a for a in sys.argv[1:] if a != "-v"]
    top = arguments[0] if arguments else "."
    verbose = "-v" in sys.argv
    texts = {p: open(p).read() for p in sorted(glob.glob(top + "/crates/*/src/**/*.rt", recursive=True))}
    for point, patterns in PATTERNS.items():
        print("point " + point)
        for what, pattern in patterns:
            found = [(p, t.count("\n", 0, m.start()) + 1, m.group(0)) for p, t in texts.items() for m in re.finditer(pattern, t, re.M)]
            print("%5d  %s" % (len(found), what))
            for path, line, text in found if verbose else []:
                print("         %s:%d %s" % (path, line, " ".join(text.split())))
        if point.startswith("2"):
            names = collections.defaultdict(list)
            for path, text in texts.items():
                for m in FUNCTION.finditer(text):
                    names[m.group(1)].append(path)
            many = {n: ps for n, ps in names.items() if len(ps) > 1}
            print("%5d  functions whose name another function has" % sum(map(len, many.values())))
            for name, paths in sorted(many.items()) if verbose else []:
                print("         %s: %s" % (name, ", ".join(paths)))


main()
