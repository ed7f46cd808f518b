#!/usr/bin/env python3
"""Counts the places in crates/*/src of which docs/DESIGN-PASS.md speaks: tools/places.py [--of COMMIT] [POINT].

With no POINT a line for each kind of place, by its name: how many there are. With one, as `loops`, each place of it. With --of COMMIT the files are read as
they stood at that commit. It reads text and proves nothing: what it lists is where to look.
"""
import collections
import re
import subprocess
import sys

FUNCTION = re.compile(r"^( *)((?:pub(?:\(crate\))? )?)(?:const )?fn (\w+)(<[^>]*>)?\(([^{]*?)\)(?:\s*->\s*([^\n{]+))?", re.M)
CLAUSE = re.compile(r"^ *(requires|ensures)\*?(?: \w+)? \{ (.*) \}$", re.M)
WORDS = set("fn pub let mut if else return while for loop match in true false as bool struct enum impl requires ensures self".split())
NUMBERS = set("u8 u16 u32 u64 usize".split())


def sources(commit):
    """Each .rt file of a src/, by its path."""
    if commit is None:
        listed = subprocess.run(["git", "ls-files", "crates/*/src/*.rt"], capture_output=True, text=True, check=True).stdout.split()
        return {path: open(path, encoding="utf-8").read() for path in listed}
    listed = subprocess.run(["git", "ls-tree", "-r", "--name-only", commit, "crates"], capture_output=True, text=True, check=True).stdout.split()
    found = [path for path in listed if re.match(r"crates/\w+/src/.*\.rt$", path)]
    return {path: subprocess.run(["git", "show", f"{commit}:{path}"], capture_output=True, text=True, check=True).stdout for path in found}


def name_of(path, function):
    """crate::module::function, as a page names it."""
    crate, module = re.match(r"crates/(\w+)/src/(.*)\.rt$", path).groups()
    return "::".join([crate] + [m for m in module.split("/") if m not in ("lib", "main")] + [function])


def functions(files):
    """Of each function with a body its name, parameters, result, the text of its clauses and its body."""
    for path, text in files.items():
        for found in FUNCTION.finditer(text):
            indent, _, name, _, parameters, result = found.groups()
            end = text.find(f"\n{indent}}}", found.end())
            whole = text[found.start():end]
            start = whole.find(f"\n{indent}{{")
            start = start if start >= 0 else whole.find("{")
            if start < 0 or end < 0:
                continue
            body = whole[start:].strip().lstrip("{")
            yield name_of(path, name), re.sub(r"\s+", " ", parameters).strip(), (result or "").strip(), whole[:start], body


def structs(files):
    for path, text in files.items():
        for found in re.finditer(r"^(?:pub(?:\(crate\))? )?struct (\w+)(?:<[^>]*>)? \{([^}]*)\}", text, re.M):
            yield name_of(path, found.group(1)), re.findall(r"(\w+): ([^,\n]+)", found.group(2))


def outcomes(files):
    """Own enums of two variants with values, and structs in which a refusal, or a flag that says whether the rest counts, stands beside other fields."""
    for path, text in files.items():
        for found in re.finditer(r"^(?:pub )?enum (\w+) \{\n((?:    .*\n)*)\}", text, re.M):
            variants = re.findall(r"^    (\w+)\(", found.group(2), re.M)
            if len(variants) == 2 == len(re.findall(r"^    \w", found.group(2), re.M)):
                yield name_of(path, found.group(1))
    flags = {"taken", "failed", "going", "drawn", "tabled", "listed", "active", "whole"}
    for name, fields in structs(files):
        if len(fields) > 1 and any(field in ("refusal", "expected") and kind == "u32" or field in flags and kind == "bool" for field, kind in fields):
            yield name


def codes(files):
    """Constants that number kinds or refusals: small, in a list of at least three that count on from one to the next."""
    for path, text in files.items():
        found = [(name, int(n)) for name, n in re.findall(r"^(?:pub )?const (\w+): u32 = (\d+);", text, re.M)]
        for at, (name, n) in enumerate(found):
            near = [m for _, m in found[max(0, at - 1):at + 2]]
            if n < 32 and (n + 1 in near or n - 1 in near):
                yield name_of(path, name)


def sentinels(files):
    """Functions of which the comment says that a number of the answer stands for nothing found."""
    for path, text in files.items():
        for found in re.finditer(r"^((?: *// .*\n)+)((?: *#\[.*\n)*) *(?:pub(?:\(crate\))? )?fn (\w+)[^{]*?-> u(?:8|16|32|64|size)\b", text, re.M):
            if re.search(r"\b(?:0|16|32|255|256|1024|2048)\b (?:where|if) (?:there is |there are )?(?:no|none|nothing)\b|says that (?:it|there) is no", found.group(1)):
                yield name_of(path, found.group(3))


def shape(text):
    """The text with each name by its first place, each numeral, letter and number type alike."""
    seen, out = {}, []
    for token in re.findall(r"b'[^']*'|b\"[^\"]*\"|\w+|[^\s\w]", text):
        if re.match(r"b'|b\"|\d", token):
            out.append("#")
        elif token in NUMBERS:
            out.append("number")
        elif token in WORDS or not re.match(r"\w", token):
            out.append(token)
        else:
            out.append(seen.setdefault(token, f"n{len(seen)}"))
    return " ".join(out)


def twins(files):
    """Functions of three lines or more that have the shape of another: parameters, result and body."""
    alike = collections.defaultdict(list)
    for name, parameters, result, _, body in functions(files):
        if len([line for line in body.split("\n") if line.strip()]) >= 3:
            alike[shape(f"{parameters} -> {result} {{ {body}")].append(name)
    for names in sorted(alike.values(), key=len, reverse=True):
        if len(names) > 1:
            yield from (f"{name}  like  {names[0]}" if name != names[0] else name for name in names)


def loops(files):
    """Loops by `while` or `loop` that count an index, a place or a number of turns up or down."""
    for name, _, _, _, body in functions(files):
        for found in re.finditer(r"^( *)(?:while [^\n]*|loop) \{\n", body, re.M):
            inside = body[found.end():body.find(f"\n{found.group(1)}}}", found.end())]
            if re.search(r"\b(\w+) = \1 [+-] 1;|\b\w+ [+-]= 1;|\bat = \w+;|\bat = at \+", inside) or re.search(r"= left\(", inside):
                yield f"{name}: {found.group(0).strip()}"


def by_hand(files):
    """Equality, order, copying and conversion written by hand: functions so named, or that only convert a number."""
    for name, parameters, result, _, body in functions(files):
        last = name.split("::")[-1]
        if re.match(r"(is_)?(same|equal|alike|copy|clone|less|lesser|smaller|larger|wide|narrow|byte)(_|$)", last) or re.match(r"copy_|copies$", last):
            yield name


def clauses(files):
    """Facts that stand in the contracts of three functions or more; the equation of a result does not count."""
    stand = collections.defaultdict(set)
    for name, _, _, contract, _ in functions(files):
        for kind, text in CLAUSE.findall(contract):
            for part in text.split(" × "):
                part = part.strip().strip("()")
                if not re.match(r"(result|\(?out\.new, result\)?[^≡]*) ≡|\(*f : Frame", part):
                    stand[(kind, part)].add(name)
    for (kind, part), names in sorted(stand.items(), key=lambda item: -len(item[1])):
        if len(names) >= 3:
            yield f"{kind} {part}: {len(names)} functions"


def together(files):
    """Three parameters, by name and type, that stand beside one another in three functions or more; a buffer and a place in it are counted as buffers."""
    stand = collections.defaultdict(set)
    for name, parameters, _, _, _ in functions(files):
        each = [p.strip() for p in parameters.split(",") if p.strip() and p.strip() not in ("out: &mut [u8]", "at: usize")]
        for at in range(len(each) - 2):
            stand[tuple(each[at:at + 3])].add(name)
    for group, names in sorted(stand.items(), key=lambda item: -len(item[1])):
        if len(names) >= 3:
            yield f"({', '.join(group)}): {len(names)} functions"


def buffers(files):
    """Functions that are lent a buffer and a place in it, or a buffer and how much of it counts."""
    for name, parameters, _, _, _ in functions(files):
        if re.search(r"(\w+): &(?:'\w+ )?mut \[u8\], (?:at|count|n|held): usize", parameters) or re.search(r"names: &\[u8\], lengths", parameters):
            yield name


def switches(files):
    """Functions that ask for the number of a kind more than once, and parameters that are functions."""
    for name, parameters, _, _, body in functions(files):
        asked = len(re.findall(r"\b(?:if|else if) \w*\.?(?:kind|row|side|what) == ", body))
        if asked > 1 or re.search(r"\bfn\(", parameters):
            yield name


def answers(_):
    """Answers of proofs that say no more than what the check tries by itself; read as they stand in the work tree."""
    for path in subprocess.run(["git", "ls-files", "crates/*/Answers.antt"], capture_output=True, text=True, check=True).stdout.split():
        for line in open(path, encoding="utf-8"):
            if re.match(r"\S+ (?:\w+ )*c = search rules$", line):
                yield f"{path}: {line.strip()}"


KINDS = [
    ("outcomes", outcomes),
    ("codes", codes),
    ("sentinels", sentinels),
    ("twins", twins),
    ("loops", loops),
    ("by-hand", by_hand),
    ("clauses", clauses),
    ("together", together),
    ("buffers", buffers),
    ("switches", switches),
    ("answers", answers),
]


def main():
    words = sys.argv[1:]
    commit = None
    if words[:1] == ["--of"]:
        commit, words = words[1], words[2:]
    files = sources(commit)
    for name, places in KINDS:
        if not words:
            print(f"{name}: {len(list(places(files)))}")
        elif words[0] == name:
            print("\n".join(places(files)))


main()
