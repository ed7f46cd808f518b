"""What the checks that try edits share: an edit, what it changes, a room to try it in, which has the crates and what is kept of their proofs, and the
prover's words about it.

An edit is a file as the toolchain has it under must-fail/: comments, and `file:`, `old:` and `new:` lines; the old text stands exactly once in its file.
A twin may change proofs too, and with `file: ../CRATE/..` another crate; its line `promise:` names the promise that refuses it. A text of a twin may have
several lines: those after the first stand in lines `and:` right behind its `old:` or `new:`. No other edit may have them, since the toolchain has not.
"""
import concurrent.futures
import glob
import os
import queue
import re
import resource
import shutil
import subprocess
import tempfile
import time


# The folders of twins, and of edits that the method of trying them is tried on.
OF_TWINS = ("twins", "trials")


class Unfit(Exception):
    """Why an edit cannot be made."""


class Edit:
    def __init__(self, crate, name, pairs=(), says=None, promise=None):
        self.crate, self.name, self.pairs, self.says, self.promise = crate, name, list(pairs), says, promise
        self.astray = None

    def __str__(self):
        return f"{self.crate}/{self.name}"


LINE = re.compile(r"(?:(file|old|says|promise): |(new|and): ?)(.*)")


def read(path):
    _, crate, folder, name = path.split("/")
    edit = Edit(crate, name[: -len(".edit")])
    file = old = before = ""
    with open(path, encoding="utf-8") as source:
        for line in source.read().split("\n"):
            told = LINE.fullmatch(line)
            word, text = (told.group(1) or told.group(2), told.group(3)) if told else ("", "")
            if word == "file":
                file = text
            elif word == "old":
                old = text
            elif word == "says":
                edit.says = text
            elif word == "promise" and folder in OF_TWINS:
                edit.promise = text.strip()
            elif word == "new":
                edit.pairs.append((file, old, text))
                old = ""
            elif word == "and" and folder in OF_TWINS and before == "old":
                old += "\n" + text
            elif word == "and" and folder in OF_TWINS and before == "new":
                edit.pairs[-1] = (*edit.pairs[-1][:2], edit.pairs[-1][2] + "\n" + text)
            elif word == "and":
                edit.astray = line
            before = before if word == "and" else word
    return edit


def all_in(folder, crates=()):
    """The edits in a folder of every crate, or of the crates named."""
    found = [read(path) for path in sorted(glob.glob(f"crates/*/{folder}/*.edit"))]
    return [edit for edit in found if not crates or edit.crate in crates]


def text_of(crate, file):
    with open(f"crates/{crate}/{file}", encoding="utf-8") as source:
        return source.read()


def place_of(edit, file):
    """The crate and the file that a `file:` line names. Of another crate, and of proofs, only a twin names one."""
    other = re.fullmatch(r"\.\./(\w+)/(.*)", file) if edit.promise else None
    crate, file = other.groups() if other else (edit.crate, file)
    folders = ("src/", "specs/", "proofs/") if edit.promise else ("src/", "specs/")
    if not file.startswith(folders) or ".." in file or not os.path.isfile(f"crates/{crate}/{file}"):
        raise Unfit(f"'{file}' is no file of {' or '.join(folders)} of {crate}")
    return crate, file


def made(edit):
    """Each file that an edit changes, by its crate and its name there, with its text after it."""
    texts = {}
    if not edit.pairs:
        raise Unfit("it changes nothing")
    if edit.astray:
        raise Unfit(f"no text of a twin goes on here: {edit.astray}")
    for file, old, new in edit.pairs:
        place = place_of(edit, file)
        text = texts.get(place) or text_of(*place)
        if not old or text.count(old) != 1:
            raise Unfit(f"the old text stands {text.count(old) if old else 0} times in {file}, not once: {old}")
        texts[place] = text.replace(old, new)
    return texts


def bodies(text):
    """The functions of a source in the layout of `rt fmt`, methods by `Type::name`, those of a trait by `TypeTrait::name`, each with where its body begins and
    ends.

    A function and the last brace of its body stand at the left edge, and so does the line that the first brace ends; all else of it is indented. So do the
    first and the last line of an `impl`, and its methods are functions with four spaces before each line."""
    found, name, begin, at, owner = {}, None, None, 0, ""
    for line in text.splitlines(keepends=True):
        within = re.match(r"impl(?:<.*?>)? (?:(?:\w+::)*(\w+).* for )?(\w+)[^{]*\{\n", line)
        if within:
            owner = within.group(2) + (within.group(1) or "") + "::"
        elif owner and line == "}\n":
            owner = ""
        edge = "    " if owner else ""
        own = line[len(edge):] if line.startswith(edge) else "\n"
        starts = re.match(r'(?:pub(?:\(\w+\))? )?(?:const )?(?:unsafe )?(?:extern "C" )?fn (\w+)', own)
        if starts:
            name, begin = owner + starts.group(1), None
        if name and begin is None and own[0] not in " \n" and own.endswith("{\n"):
            begin = at + len(line)
        elif name and begin is not None and own.rstrip("\n") == "}":
            found[name] = (begin, at)
            name = None
        at += len(line)
    return found


class Room:
    """A copy of the crates, apart from the checkout, where the toolchain takes every file of theirs for one of its own. What is kept of their proofs, in out/,
    is there by links, where these can be made: the toolchain puts a new file in the place of such an old one, and writes into none."""

    def __init__(self, where):
        self.where, self.kept = where, set()
        for crate in order_of_crates():
            for part in ("src", "specs", "proofs"):
                if os.path.isdir(f"crates/{crate}/{part}"):
                    shutil.copytree(f"crates/{crate}/{part}", self.path(crate, part))
        for file in ("crates.txt", "HANDLES"):
            if os.path.exists(file):
                shutil.copy(file, where)

    def path(self, crate, *parts):
        return os.path.join(self.where, "crates", crate, *parts)

    def rt(self, *words, crate=None):
        """Runs the toolchain here, at the top or in the folder of a crate. Answers its exit status and all that it said."""
        where = self.path(crate) if crate else self.where
        ran = subprocess.run(["rt", *words], cwd=where, stdin=subprocess.DEVNULL, stdout=subprocess.PIPE, stderr=subprocess.STDOUT)
        return ran.returncode, ran.stdout.decode(errors="replace")

    def rt_with(self, edit, crate, *words):
        """The same in the folder of a crate with an edit made, which is taken back afterwards. An edit that cannot be made answers None and why."""
        try:
            texts = made(edit)
        except Unfit as why:
            return None, str(why)
        try:
            for place, text in texts.items():
                self.write(*place, text)
            return self.rt(*words, crate=crate)
        finally:
            for place in texts:
                self.write(*place, text_of(*place))

    def write(self, crate, file, text):
        with open(self.path(crate, file), "w", encoding="utf-8") as source:
            source.write(text)

    def keep(self, crates):
        """Has here what is kept of the proofs of these crates, where it is not yet or no longer."""
        for crate in set(crates) - self.kept:
            for part in ("rlib", "incremental"):
                shutil.rmtree(self.path(crate, "out", part), ignore_errors=True)
                if os.path.isdir(f"crates/{crate}/out/{part}"):
                    shutil.copytree(f"crates/{crate}/out/{part}", self.path(crate, "out", part), symlinks=True, copy_function=linked)
        self.kept |= set(crates)


def linked(file, other):
    """Gives a file another name, or copies it: one that the prover may write into, and where a link cannot be made."""
    try:
        if "/out/rlib/" in file or file.endswith(".oantt"):
            return os.link(file, other)
    except OSError:
        pass
    return shutil.copy2(file, other)


# ---- what the prover says

# Errors that only follow from another one, and errors that say nothing of an edit's meaning: a proof that names what the code no longer has.
FOLLOWS = re.compile(r"\d+ declarations? that depends? on .* not checked: ")
SHAPE = re.compile(r"has no field|has no `|has no function|can be named|is not in scope")


class Error:
    """An error of the prover: its file, its line and column there, the declaration that it refuses, and what it says."""

    def __init__(self, file, line, column, what):
        self.file, self.line, self.column, self.what = file, int(line or 0), int(column or 0), what
        named = re.match(r"`([^`]+)`: ", what)
        self.declaration = named.group(1) if named else None
        self.where = f"{file}:{line}:{column}" if line else file
        self.follows, self.shape = bool(FOLLOWS.match(what)), bool(SHAPE.search(what))


def last_of(said):
    """What was said of the last crate that a check was at: those below, which are proved again, come before it, and end in a line `logic=` each."""
    ends = [found.end() for found in re.finditer(r"(?m)^logic=.*\n?", said)]
    return said[ends[-2]:] if len(ends) > 1 else said


def errors_in(said):
    found = (re.match(r"(?:\./)?((?:src|specs|proofs)/[^:\s]+):(?:(\d+):(\d+):)? error(?:\[[\w-]+\])?: (.*)", line) for line in said.split("\n"))
    return [Error(*error.groups()) for error in found if error]


def outcome(status, said):
    """'proved', 'refused', or what else came of a check, and then what shows it."""
    if status is None:
        return "no edit of the crate", said
    lines = said.rstrip("\n").split("\n")
    logic = [line for line in lines if line.startswith("logic=")]
    if status == 0 and logic and logic[-1].startswith("logic=proved"):
        return "proved", ""
    if status != 1 or not logic or not logic[-1].startswith("logic=not-proved"):
        return "not brought to the prover", next((line for line in lines if "error" in line or "NOT PROVED" in line), lines[-1])
    outside = next((error for error in errors_in(said) if not error.file.startswith("proofs/") and not error.follows), None)
    return ("not readable", f"{outside.where}: {outside.what}") if outside else ("refused", "")


# ---- trying edits, a check for each processor at a time

def order_of_crates():
    """The crates with what each rests on, as crates.txt has them. Behind a crate's name there may be words on its kind."""
    order = {}
    with open("crates.txt", encoding="utf-8") as listed:
        for line in listed:
            head, _, deps = line.split("#")[0].partition(":")
            if head.split():
                order[head.split()[0]] = deps.replace(",", " ").split()
    return order


def lowest_first(order):
    """The crates, each behind those that it rests on."""
    found = []

    def visit(crate):
        if crate in order and crate not in found:
            for dep in order[crate]:
                visit(dep)
            found.append(crate)

    for crate in order:
        visit(crate)
    return found


def below(crate, order):
    """A crate and all that it rests on."""
    reached, todo = set(), [crate]
    while todo:
        crate = todo.pop()
        if crate in order and crate not in reached:
            reached.add(crate)
            todo += order[crate]
    return reached


class Bench:
    """A room, and checks in it that begin with what is kept."""

    def __init__(self, where, logs, order):
        self.room, self.logs, self.order = Room(where), logs, order

    def run(self, edit, crate, again=()):
        """One check of a crate with an edit made, for which those in `again` are proved again. Answers its status, what it said, and the seconds that it took."""
        began = time.time()
        self.room.keep(below(crate, self.order))
        status, said = self.room.rt_with(edit, crate, "check", "--jobs", "1")
        self.room.kept -= {crate, *again}
        os.makedirs(f"{self.logs}/{edit.crate}", exist_ok=True)
        with open(f"{self.logs}/{edit}.log", "w", encoding="utf-8") as log:
            log.write(said + "\n")
        return status, said, time.time() - began


def cost(crate, order, again=()):
    """About how many thousandths of a second a check takes: one for each module loaded, and more for a crate that is proved again whole."""
    kept = glob.glob(f"crates/{crate}/out/incremental/*/")
    return sum(len(os.listdir(folder)) for folder in kept) + 200 * len(below(crate, order)) + 8000 * len(again)


def workers():
    """How many checks go at a time: one for each processor, and for each 3 GB of memory that is free."""
    with open("/proc/meminfo", encoding="utf-8") as lines:
        free = next((int(line.split()[1]) >> 20 for line in lines if line.startswith("MemAvailable:")), 3)
    return max(1, min(len(os.sched_getaffinity(0)), free // 3))


def try_all(found, edits, attempt, logs, wanted):
    """Has each edit attempted on a bench, and prints what came of it. Answers the exit status: 0 if some were found and all came to what is wanted.

    `attempt(bench, edit)` answers the verdict, what shows it, and how it was tried. `wanted` is as for `told`."""
    shutil.rmtree(logs, ignore_errors=True)
    os.makedirs(logs)
    order, count = order_of_crates(), workers()
    with tempfile.TemporaryDirectory(prefix="wallwisteria-edits-") as where:
        benches = queue.Queue()
        for number in range(count):
            benches.put(Bench(os.path.join(where, str(number)), logs, order))

        def one(edit):
            bench = benches.get()
            try:
                return edit, *attempt(bench, edit)
            finally:
                benches.put(bench)

        with concurrent.futures.ThreadPoolExecutor(count) as pool:
            return told(found, pool.map(one, edits), wanted)


def told(found, tried, wanted):
    """Prints what came of each edit: the edit, the verdict, what shows it, and how it was tried. Answers the exit status: 0 if some were found and all came to
    what is wanted. `wanted` has, for those that the method itself is tried on, the verdict that each must have; all others must be refused."""
    passed, failed = 0, 0
    for edit, what, shown, how in tried:
        good = what == wanted.get(str(edit), "refused")
        passed, failed = passed + good, failed + (not good)
        print(f"{'' if good else 'FAILED: '}{edit} {what}{f' ({how})' if how else ''}: {shown[:200]}", flush=True)
    spent = resource.getrusage(resource.RUSAGE_CHILDREN)
    print(f"{found} found, {passed + failed} tried with those that try the method, {spent.ru_utime + spent.ru_stime:.0f} s of a processor")
    print(f"{passed} passed, {failed if found else failed + 1} failed")
    return 0 if found and passed and not failed else 1
