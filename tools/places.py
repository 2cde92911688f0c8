#!/usr/bin/env python3
"""Counts, in src/ of every crate, the places that an older Rattle would write in another form than today's.

    python3 tools/places.py [COMMIT] [--list]

Without a commit it reads the files as they stand. Each row is a kind of place that a pattern finds; --list prints them.
A pattern finds candidates: which of them have to change is for a reader to say (docs/DESIGN-PASS.md).
"""

import collections
import re
import subprocess
import sys

# point, kind of place, pattern over one line of code
PATTERNS = [
    (1, "variant of an own enum that says that there is nothing", r"^    (?:None|Nothing|NotServed|NotAtAll|Rest|Done|Zero|Stays|Lasts)(?:,|\()"),
    (1, "field that is a flag", r"^\s*(?:pub(?:\(crate\))? )?\w+: bool,"),
    (1, "number in place of a kind or a refusal", r"Result<[^>]*, u8>|Option<u8>\s*\{?$|Refused\(u8\)|Ok\(Some\(1[123]\)\)|Some\(1[123]\)|Err\(13\)|&'static \[u8\]|number: u8"),
    (3, "loop over a range of numbers", r"\bfor \w+ in [^{]*\.\.(?!\.)"),
    (3, "while loop", r"^\s*while\b"),
    (3, "counter", r"^(?!\s*let ).*= (?:self\.)?\w+(?:\.\w+)*(?:\[[^\]]*\])?\.(?:wrapping|saturating)_(?:add|sub)\(1\)|(?:\+|-)= 1\b"),
    (3, "item by its index", r"\[[a-z_]+(?: as usize)?\]"),
    (4, "conversion by a function", r"\bfn (?:\w+_of|of_\w+|\w+_seen|seen_\w+|\w+_word|letter|spelt|number|from_bits|bits|byte|of|engine_record|engine_kind|engine_call|outcome_record)\b\s*[(<]"),
    (4, "cast", r"\bas (?:u8|u16|u32|u64|usize|char)\b"),
    (4, "bytes of a number by hand", r"[/%] 256\b|\* 256\b|wrapping_mul\(256\)"),
    (4, "test by matches! or by two conversions", r"\bmatches!|\.letter\(\) ==|\.bits\(\) [!=]="),
    (4, "option by an if, or match with a value for none", r"None => (?:0|None|false|Seen::Nothing|Err\(|return|\w+::None)"),
    (6, "array with a number of places", r": \[[^\]]+; \w+\]"),
    (7, "match on which step, call, verb or question", r"\bmatch (?:self\.)?(?:step|call|\*self|call\.verb|verb|number|act|step\.then|example|leaning)\b"),
]

CLAUSE = re.compile(r"^\s*(?:ensures|requires)\*? (?:\w+ )?\{ (.*) \}$")
FUNCTION = re.compile(r"\bfn (\w+)(?:<[^(]*>)?\s*\(([^)]*)\)", re.S)
PARAMETER = re.compile(r"(\w+): ([^,()]+(?:\([^)]*\))?)")


def git(*words):
    return subprocess.run(["git", *words], capture_output=True, text=True, check=True).stdout


def sources(commit):
    if commit:
        names = git("ls-tree", "-r", "--name-only", commit, "crates").splitlines()
    else:
        names = git("ls-files", "crates").splitlines()
    for name in sorted(names):
        if "/src/" in name and name.endswith(".rt"):
            yield name, git("show", f"{commit}:{name}") if commit else open(name).read()


def code(text):
    for number, line in enumerate(text.splitlines(), 1):
        if not line.lstrip().startswith(("//", "ghost use", "use ")):
            yield number, line


def main():
    words = [w for w in sys.argv[1:] if not w.startswith("--")]
    files = list(sources(words[0] if words else None))
    found = collections.defaultdict(list)
    clauses = collections.defaultdict(set)
    pairs = collections.defaultdict(set)
    for name, text in files:
        crate = name.split("/")[1]
        for number, line in code(text):
            for point, kind, pattern in PATTERNS:
                if not re.search(r"^\s*(?:ensures|requires|ghost)\b", line) and re.search(pattern, line):
                    found[point, kind].append(f"{name}:{number}: {line.strip()}")
            clause = CLAUSE.match(line)
            if clause:
                clauses[crate, clause[1]].add(f"{name}:{number}")
        for function in FUNCTION.finditer(text):
            those = sorted(set(PARAMETER.findall(" ".join(function[2].split()))))
            for i, one in enumerate(those):
                for other in those[i + 1:]:
                    pairs[crate, one, other].add(f"{name} {function[1]}")
    for (crate, clause), places in clauses.items():
        if len(places) >= 3:
            found[5, "clause that stands three times or more"].append(f"{crate}, {len(places)} times: {clause}")
    for (crate, one, other), places in pairs.items():
        if len(places) >= 3:
            found[5, "two parameters that travel together through three functions or more"].append(
                f"{crate}, {len(places)} functions: {': '.join(one)} with {': '.join(other)}")
    kinds = [(p, k) for p, k, _ in PATTERNS] + [k for k in found if k[0] == 5]
    for point, kind in sorted(set(kinds), key=lambda k: (k[0], kinds.index(k))):
        print(f"{point}  {len(found[point, kind]):4}  {kind}")
        if "--list" in sys.argv:
            for place in found[point, kind]:
                print(f"            {place}")


main()
