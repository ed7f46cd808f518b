#!/usr/bin/env python3
"""Brings the repository's own names to today's spelling, once, at its top, after port.py. Needs Python 3 alone.

- A word in camel case becomes snake case, wherever it stands in .antt, .rt and .edit files outside strings, and in the pages' texts in backquotes.
  A name or a part of a name that begins with a capital stays, and so do the names of files.
- `′` becomes `'`.
- In a page a dashed name that is also a file's or that a string has stays.
- A dash that no definition's name follows becomes `_`, in the names that specs/**/*.antt and proofs/*.antt declare. Such a name is
  turned where it is declared, where it is imported or named through its module's alias, and in the pages' texts in backquotes; behind any
  other dot, in proofs/F/, it may be a step's that Rattle makes, and stays.
- A lemma that would then have the name of a definition, or of another lemma, of a file that has both in scope, gets `_lem`.
- OTHER has the names that would fall together still, or that the rules spell badly.

It prints what got `_lem`, how many names it turned, and each two names of a file that fall together.
"""
import collections
import re
import subprocess
import sys

OTHER = {
    "noneFrom256": "none_from_256",
    "leftBy16": "left_by_16",
    "leftBy17": "left_by_17",
    "leftBy18": "left_by_18",
}
RESERVED = set("open data record ruleset ground assumption search let in as where module use pub mod elim rw at omega unfold unfolding unfoldable "
               "opaque abbrev rec given by with case of if then else import forall".split())
TOKEN = re.compile(r"(?<![\w'])[^\W\d][\w']*(?:-[\w']+)*")
USE = re.compile(r"(?m)^[ \t]*(?:pub )?(?:ghost )?use ([\w.+]+?)(?:\.\{([^}]*)\}| as ([^\s;]+))")
PARTS = {  # strings, comments, then all else
    "antt": re.compile(r'(?P<string>"(?:[^"\\\n]|\\.)*")|(?P<comment>--[^\n]*)|(?P<token>' + TOKEN.pattern + ")"),
    "rt": re.compile(r"(?P<string>\"(?:[^\"\\]|\\.)*\"|b?'(?:[^'\\\n]|\\.[^'\n]*)')|(?P<comment>//[^\n]*)|(?P<token>" + TOKEN.pattern + ")", re.S),
}


def files(*patterns):
    listed = subprocess.run(["git", "ls-files", *patterns], capture_output=True, text=True, check=True).stdout
    return [path for path in listed.splitlines() if path != "tools/spelling.py"]


def read(path):
    with open(path, encoding="utf-8") as file:
        return file.read()


def snake(name):
    """The name with each part that begins with a small letter in snake case."""
    if name in OTHER:
        return OTHER[name]
    parts = [OTHER.get(part) or (part if part[:1].isupper() else re.sub(r"(?<=[^\W_A-Z])(?=[A-Z])|(?<=[A-Z])(?=[A-Z][a-z])", "_", part)) for part in name.split("-")]
    return "-".join(part if old[:1].isupper() or "_" in old and part == old else part.lower() if part.isascii() else part
                    for old, part in zip(name.split("-"), parts))


def is_library(path):
    return bool(re.fullmatch(r"crates/[^/]+/(specs/.+|proofs/[^/]+)\.antt", path))


def file_of(module):
    """The file of a module of the repository."""
    found = re.fullmatch(r"Rattle\.(\w+)\.((?:specs|proofs)\..*)", module)
    return f"crates/{found.group(1)}/{found.group(2).replace('.', '/')}.antt" if found else None


def declared(text):
    """The names that a file declares, at its top, in a module, a record or a `where`."""
    code = re.sub(r'"(?:[^"\\\n]|\\.)*"|--[^\n]*', "", text)
    return set(re.findall(rf"(?m)^[ \t]*(?:(?:unfoldable|abbrev|pub|opaque|record|data|module|instance)[ \t]+)*({TOKEN.pattern})[ \t]*(?:[({{\[][^\n=]*)?:(?=\s)", code))


def fields_of(text):
    """The names of the fields of a file's records."""
    found, depth = set(), None
    for line in text.split("\n"):
        inner = len(line) - len(line.lstrip())
        if depth is not None and line.strip() and inner <= depth:
            depth = None
        if re.match(r"[ \t]*(?:pub )?record [^=]*\bwhere\b|[ \t]*(?:\w+ )*record pub .*where", line):
            depth = inner
        elif depth is not None:
            found |= set(re.findall(rf"^[ \t]+(?:pub )?({TOKEN.pattern}) :(?=\s|$)", line))
    return found


class Names:
    """What each file declares and has in scope, and what becomes of each name."""

    def __init__(self):
        self.texts = {path: read(path) for path in files("crates/*.antt", "crates/*.rt")}
        self.declared = {path: declared(text) for path, text in self.texts.items() if is_library(path)}
        self.words, self.definitions = set(), set()
        for path, text in self.texts.items():
            if is_library(path):
                code = re.sub(r"--[^\n]*", "", text)
                kinds = "[ \t]*(?:unfoldable|abbrev)[ \t]+(?:pub[ \t]+)?" if "/proofs/" in path else "(?:(?:unfoldable|abbrev|pub)[ \t]+)*"
                named = set(re.findall(rf"(?m)^{kinds}({TOKEN.pattern})[^\n=]* :(?=\s)", code))
                self.definitions |= {(path, name) for name in named}
                self.words |= {snake(name) for name in named if re.search(rf"(?m)^(?:(?:unfoldable|abbrev|pub) )*{re.escape(name)} ", code)}
            for module, names, _ in USE.findall(text):
                if not file_of(module) or module.startswith("Rattle.std."):
                    self.words |= {name.split(" as ")[0].strip() for name in names.split(",")}
        self.words = {word for word in self.words if "-" not in word}
        fields = {path: fields_of(text) for path, text in self.texts.items() if is_library(path)}
        self.fields = set().union(*fields.values()) - {name for path, names in self.declared.items() for name in names - fields[path]}
        self.turned = {path: {name: self.dashes(snake(name)) for name in names} for path, names in self.declared.items()}
        self.anywhere, self.now = {}, set()
        self.scopes = {path: self.scope(path) for path in self.texts}
        strings = [found.group("string") or "" for path, text in self.texts.items() for found in PARTS[path.rsplit(".", 1)[1]].finditer(text)]
        paths = files()
        self.said = {name for name in TOKEN.findall("\n".join(strings)) + TOKEN.findall("\n".join(paths)) if "-" in name}  # in outputs and names of files
        self.apart()
        for turned in self.turned.values():
            for name, new in turned.items():
                if name != new and ("-" in name or name != snake(name)):
                    self.anywhere.setdefault(name, new)
        self.now = {new for turned in self.turned.values() for new in turned.values()}

    def dashes(self, name):
        """The name with `_` for each dash that no definition's name follows."""
        if name in OTHER.values():
            return name
        for place in [found.start() for found in re.finditer("-", name)]:
            rest = re.split("[-_]", name[place + 1:])
            keeps = name[place + 1].isupper() or any("_".join(rest[:n + 1]) in self.words for n in range(len(rest)))
            name = name if keeps else name[:place] + "_" + name[place + 1:]
        return name

    def scope(self, path):
        """For each name of a library file that stands alone in this file its home, and for each alias of such a file that file."""
        alone, aliases = {name: path for name in self.declared.get(path, ())}, {}
        for module, names, alias in USE.findall(self.texts[path]):
            home = file_of(module)
            if home not in self.declared:
                continue
            if alias:
                aliases[alias] = home
            for name in names.split(","):
                name = name.split(" as ")[0].strip()
                if name in self.declared[home]:
                    alone.setdefault(name, home)
        return alone, aliases

    def apart(self):
        """Gives `_lem` to the lemmas that fall together with another name of a file."""
        self.lemmas = set()
        while True:
            more = set()
            for path, text in self.texts.items():
                if not path.endswith(".antt"):
                    continue
                alone = self.scopes[path][0]
                for (dotted, new), olds in self.turn(text, path, "antt")[1].items():
                    lemmas = [name for name in sorted(olds, key=lambda name: ("-" in name, name)) if name in alone and "/proofs/" in alone[name]]
                    if dotted is False and len(olds) > 1:
                        rest = [name for name in lemmas if (alone[name], name) not in self.definitions]
                        rest = rest[1:] if len(rest) == len(olds) else rest
                        more |= {(alone[name], name, new + "_lem") for name in rest if not new.endswith("_lem")}
            if not more:
                return
            for home, name, new in more:
                self.turned[home][name] = new
            self.lemmas |= more

    def turn(self, text, path, kind, aside={}):
        """The text of a file, or of an edit of it, and what became of each word of its code."""
        alone, aliases = self.scopes.get(path, ({}, {}))
        became = {}

        def word(found, text):
            name = found.group(0)
            before = re.search(r"([\w'-]*) ?\.$", text[max(0, found.start() - 60):found.start()])
            if not before:
                home = alone.get(name)
            else:
                home = aliases.get(before.group(1)) or (path if is_library(path) and name in self.fields else None)
            new = self.turned.get(home, {}).get(name) or snake(name)
            if name in aside and not before:  # a name of an edit, which port.py turned in the file
                new = self.turned.get(alone.get(aside[name]), {}).get(aside[name]) or aside[name]
            return new, before and aliases.get(before.group(1)) or bool(before) or "/proofs/" in path and name in self.fields

        def part(found):
            if found.group("string"):
                return found.group(0)
            if found.group("comment"):
                comment = re.sub(r"`[^`]*`", lambda span: self.span(span.group(0)), found.group(0))
                return TOKEN.sub(lambda one: self.anywhere.get(one.group(0), snake(one.group(0))) if snake(one.group(0)) != one.group(0) else one.group(0), comment)
            new, dotted = word(found, text)
            became.setdefault((dotted, new), set()).add(found.group(0))
            return new

        return PARTS[kind].sub(part, text.replace("′", "'")), became

    def span(self, text):
        """A text in backquotes; a name that port.py turned in the sources alone is turned here."""
        def one(found):
            name, plain = found.group(0), found.group(0).replace("-", "_")
            if name in self.said:
                return name
            if name in self.anywhere:
                return self.anywhere[name]
            return plain if name not in self.now and plain in self.now else snake(name)

        return TOKEN.sub(one, text)

    def aside(self, path):
        """For each name of a file with a `_` that it has no dashed form of, that form."""
        used = set(TOKEN.findall(self.texts.get(path, "")))
        imported = {name.strip() for _, names, _ in USE.findall(self.texts.get(path, "")) for name in names.split(",")} | set(self.scopes.get(path, ({},))[0])
        pairs = {name.replace("_", "-"): name for name in imported if "_" in name and name.strip("_") == name}
        return {dashed: name for dashed, name in pairs.items() if dashed not in used}

    def edit(self, text, path):
        """An edit, which names the files it changes by itself."""
        at, lines = path, []
        for line in text.replace("′", "'").split("\n"):
            start = re.match(r"(\w+): ?", line)
            key = start.group(1) if start else ""
            if key == "file":
                named = re.sub(r"^file: *", "", line)
                at = re.sub(r"^crates/[^/]+/\.\./", "crates/", "/".join(path.split("/")[:2]) + "/" + named)
            elif key == "promise":
                line = self.span(line)
            elif key in ("old", "new"):
                body = line[start.end():]
                line = line[:start.end()] + self.turn(body, at, "rt" if at.endswith(".rt") else "antt", self.aside(at))[0]
            else:
                line = re.sub(r"`[^`]*`", lambda span: self.span(span.group(0)), line)
                line = TOKEN.sub(lambda one: snake(one.group(0)), line)
            lines.append(line)
        return "\n".join(lines)


def together(became, path, text, names):
    """The words of a file that fall together, or that a parameter or a binding of a Rattle function hides."""
    for (dotted, new), olds in sorted(became.items(), key=str):
        if len(olds) > 1 and not path.endswith(".rt"):  # a word may have the name of a function of src/
            yield f"{path}: {' and '.join(sorted(olds))} are both {'.' if dotted else ''}{new}"
        if not dotted and new in RESERVED and olds != {new}:
            yield f"{path}: {new}, of {', '.join(sorted(olds))}, is a reserved word"
    if path.endswith(".rt"):
        for body in re.split(r"(?m)^(?=[ \t]*(?:pub(?:\(\w+\))? )?(?:ghost )?(?:const )?fn )", text):
            bound = set(re.findall(r"\blet (?:mut |ghost )*(\w+)|[(,|]\s*(?:mut )?(\w+)\s*:[^:]|\bfor (\w+) in|\|(\w+)\|", body))
            bound = {name for four in bound for name in four if name}
            for (dotted, new), olds in became.items():
                if not dotted and new in bound and olds != {new} and any(re.search(rf"(?<![\w'-]){re.escape(old)}(?![\w'-])", body) for old in olds if old != new):
                    yield f"{path}: {', '.join(sorted(olds))} would be hidden by {new} of {body.strip().splitlines()[0]}"


def main():
    names = Names()
    results, clashes = {}, []
    for path, text in names.texts.items():
        kind = path.rsplit(".", 1)[1]
        results[path], became = names.turn(text, path, kind)
        clashes += together(became, path, text, names)
    for path in files("*.edit"):
        results[path] = names.edit(read(path), path)
    for path in files("README.md", "docs/*.md", "bench/*.md", "examples/*.md"):  # docs/*.md goes into its folders
        fences = re.split(r"(?ms)(^```.*?^```)", read(path))
        results[path] = "".join(names.span(part) if n % 2 else re.sub(r"`[^`\n]+`", lambda span: names.span(span.group(0)), part) for n, part in enumerate(fences))
    known = {name for text in names.texts.values() for name in TOKEN.findall(text)}
    turned = {name for name in known if snake(name) != name} | set(names.anywhere)
    changed = 0
    for path, text in results.items():
        if text != read(path):
            changed += 1
            with open(path, "w", encoding="utf-8") as file:
                file.write(text)
    for home, name, new in sorted(names.lemmas):
        print(f"{home}: {name} becomes {new}")
    print("\n".join(clashes))
    print(f"{len(turned)} names in {changed} files; {len(clashes)} clashes")
    return 1 if clashes else 0


if __name__ == "__main__":
    sys.exit(main())
