#!/usr/bin/env python3
"""Lists the places in crates/*/src that docs/DESIGN-PASS.md counts, point by point. Run at the top of the repository.

Without a word it prints the counts; with a number from 1 to 8 the places of that point too."""
import collections
import glob
import re
import sys

TABLES = "held timestamps order status withdrawn lengths programs reads writes sources seen targets written view versions cutoff kept".split()
# Parameters that travel together, by their names.
GROUPS = {
    "the seventeen tables": TABLES,
    "values before and after, and which are known": ["before", "after", "known"],
    "how far settings matter": ["readers", "writers"],
    "the lists of a run": ["new_sources", "new_seen", "new_targets", "new_written"],
    "the four lent lists of a run": ["sources: &mut [u16; 32]", "seen: &mut [i32; 32]"],
}
FUNCTION = re.compile(r'^(?:    )?(?:pub(?:\(crate\))? )?(?:extern "C" )?fn (\w+)(<[^>]*>)?\(', re.M)


def sources():
    for path in sorted(glob.glob("crates/*/src/**/*.rt", recursive=True)):
        text = open(path).read()
        yield path, re.sub(r"#\[cfg\(test\)\]\nmod tests \{.*", "", text, flags=re.S)


def functions():
    """Each function: where it stands, its name, its parameters, what follows them up to its body, its body."""
    for path, text in sources():
        for found in FUNCTION.finditer(text):
            at = found.end()
            depth = 1
            end = at
            while depth:
                depth += {"(": 1, ")": -1}.get(text[end], 0)
                end += 1
            parameters = [p.strip() for p in re.split(r",(?![^\[<(]*[\])])", text[at:end - 1]) if p.strip()]
            opening = re.search(r"^(?:    )?\{$| \{$", text[end:], re.M)
            begin = end + opening.end()
            depth = 1
            stop = begin
            while depth and stop < len(text):
                depth += {"{": 1, "}": -1}.get(text[stop], 0)
                stop += 1
            line = text.count("\n", 0, found.start()) + 1
            yield f"{path}:{line}", found.group(1), parameters, text[end:begin], text[begin:stop - 1]


def lines(pattern):
    for path, text in sources():
        for number, line in enumerate(text.splitlines(), 1):
            if re.search(pattern, line.split("//")[0]):
                yield f"{path}:{number}: {line.strip()}"


def own_shapes():
    """Enums with a variant that says no more than None or Err, and numbers for kinds and refusals."""
    for path, text in sources():
        for found in re.finditer(r"enum (\w+) \{(.*?)\n\}", text, re.S):
            if re.search(r"\b(Nothing|None|Refused\()", found.group(2)):
                yield f"{path}: enum {found.group(1)}"
    yield from lines(r"\b(fault|refusal|kind|state|answer|known|act): (&mut )?\[?(u8|u16|usize|bool)\b")
    for where, name, _, head, _ in functions():
        if re.search(r"-> u8\b", head):
            yield f"{where}: {name} answers u8"
        if re.search(r"-> usize\b", head) and name in ("wanted", "setting_or"):
            yield f"{where}: {name} answers a number that means none"


def twins():
    """Functions whose text is the same but for names, types and numbers (six words of body or more), and names that end in a type."""
    groups = collections.defaultdict(list)
    for where, name, parameters, head, body in functions():
        words = re.findall(r"[A-Za-z_]\w*|\d+|[^\s\w]", ", ".join(parameters) + head.split("requires")[0].split("ensures")[0] + "{" + body)
        names = {}
        shape = []
        for word in words:
            if re.fullmatch(r"u8|u16|u32|u64|i32|i64|usize|\d+", word):
                shape.append("T" if not word.isdigit() else "0")
            elif re.match(r"[A-Za-z_]", word) and word not in ("while", "for", "in", "if", "else", "return", "let", "mut", "match", "as", "bool", "true", "false"):
                shape.append(names.setdefault(word, f"n{len(names)}"))
            else:
                shape.append(word)
        if len(re.findall(r"\w+", body)) >= 6:
            groups[" ".join(shape)].append(f"{where}: {name}")
    for places in groups.values():
        if len(places) > 1:
            yield from places


def together():
    for what, names in GROUPS.items():
        for where, name, parameters, _, _ in functions():
            own = [re.sub(r"^mut ", "", p).split(":")[0].strip() for p in parameters]
            if all((n in parameters) if ":" in n else (n in own) for n in names):
                yield f"{where}: {name}: {what}"


def facts():
    """Facts of the specs that stand in the contracts of three functions or more."""
    cited = collections.defaultdict(set)
    for where, name, _, head, _ in functions():
        for clause in re.findall(r"requires[^{]*\{(.*?)\}(?=\n    (?:requires|ensures)|\n\{|$)", head, re.S):
            for fact in set(re.findall(r"\b([A-Z]\w+)\b", clause)):
                if fact not in ("T", "C", "L", "U") and fact.upper() != fact:
                    cited[fact].add(f"{where}: {name}")
    for fact, places in sorted(cited.items()):
        if len(places) >= 3:
            for place in sorted(places):
                yield f"{place}: requires {fact}"


def buffers():
    for where, name, parameters, _, _ in functions():
        own = {p.split(":")[0].replace("mut ", "").strip(): p for p in parameters if ":" in p}
        for text in ("text", "bytes"):
            if "at" in own and f"&mut [u8]" in own.get(text, ""):
                yield f"{where}: {name}: a buffer and where its contents end"
        if "count" in own and any(n in own and "; " in own[n] for n in ("targets", "settings", "list", "changed", "places")):
            yield f"{where}: {name}: an array and how many entries of it count"


def proofs():
    for path in sorted(glob.glob("crates/*/proofs/**/*.antt", recursive=True)):
        if re.search(r"/(Proof|Answers|Invariants)\.antt$", path):
            yield path


POINTS = {
    1: ("own Option and Result shapes, flags beside values, numbers for kinds and refusals", own_shapes),
    2: ("twins", twins),
    3: ("loops that count an index by hand", lambda: lines(r"^\s*(while\b|loop\b|let .* = loop\b)")),
    4: ("derives in two lines; comparing, copying, converting and printing by hand",
        lambda: (p for q in (lines(r"#\[derive\(Drop\)\]$"), lines(r"=> (true|false),$"), lines(r"fn (same_|\w*_number|number_of|pattern|number|low_bits|wrapped|put_(number|signed))\w*\b")) for p in q)),
    5: ("parameters that travel together", together),
    6: ("buffers with a length beside", buffers),
    7: ("switches on a step, tables of functions", lambda: lines(r"\bdyn\b|\bimpl Fn|: fn\(|\bFn(Mut|Once)?\(")),
    8: ("files of function proofs", proofs),
}


def main():
    for point, (what, find) in POINTS.items():
        places = list(find())
        print(f"{point}. {what}: {len(places)}")
        if str(point) in sys.argv[1:]:
            for place in places:
                print(f"   {place}")
    if "5" in sys.argv[1:]:
        print("facts in the contracts of three functions or more:")
        for place in facts():
            print(f"   {place}")


main()
