"""Tests of wisteria.py over the proved library: python3 python/test_wisteria.py, behind ./run library. They start ./run too."""
import _ctypes
import copy
import doctest
import os
import pickle
import random
import re
import shutil
import subprocess
import sys
import tempfile
import threading
import unittest
from pathlib import Path

import wisteria
from wisteria import Controller, Refused

ROOT = Path(__file__).resolve().parent.parent
TRACES = sorted((ROOT / "examples").glob("*.trace"))

# A configuration of each kind, an offset behind its last register, and offsets that are drawn often: what enables, sets, maps and ends.
KINDS = {
    "aic": ((0x30, 0x11), 0x150, (0x100, 0x120, 0x130)),
    "coreinterrupt": ((3, 9, 1, 0), 0x034, (0x008, 0x020)),
    "cic": ((40, 5, 3, 0x4E800200), 0x900, (0x010, 0x020, 0x028, 0x034, 0x400, 0x404, 0x800, 0x1500)),
    "aintc": ((), 0x300, (0x048, 0x068)),
    "indexed": ((40, 5, 3, 7, 1), 0xD00, (0x010, 0x020, 0x028, 0x034, 0x080, 0x400, 0x800, 0x1500)),
}


def run(*words, told=None):
    """What ./run prints."""
    done = subprocess.run([ROOT / "run", *words], input=told, capture_output=True, check=False)
    return done.stdout.decode("ascii")


def drawn(chance, kind):
    """A step by chance, as a tuple: mostly of registers and lines that there are, and now and then of anything."""
    _, last, often = KINDS[kind]
    step = chance.choice(["read", "write", "line"])
    if step == "line":
        return step, chance.randrange(130 if kind == "aintc" else 42), 2 if chance.random() < 0.03 else chance.randrange(2)
    offset = chance.choice([4 * chance.randrange(last // 4)] * 12 + [chance.choice(often)] * 6 + [chance.randrange(0x2000), 0x1500 + 4 * chance.randrange(8)])
    privilege = int(kind != "aintc" or chance.random() < 0.9)
    if step == "read":
        return step, offset, privilege
    small = sum(chance.randrange(3) << 8 * byte for byte in range(4))
    value = chance.choice([chance.randrange(4), 1 << chance.randrange(32), chance.randrange(256), small, chance.randrange(1 << 32)])
    return step, offset, value, privilege


def carried_out(controller, step):
    """One step by the method of its name: the number of the refusal, and the value."""
    try:
        value = getattr(controller, step[0])(*step[1:])
    except Refused as refused:
        return refused.number, 0
    return 0, value or 0


def statement(kind, step):
    """The step as a line of text (docs/TEXT.md), in which an AINTC's access alone has a privilege, right behind the offset."""
    name, first, *others = step
    if name == "line":
        words = [first, *others]
    else:
        privilege = others.pop()
        words = [first, *([privilege] if kind == "aintc" else []), *others]
    return " ".join(map(str, [name, *words]))


class Case(unittest.TestCase):
    def same_lines(self, lines, others):
        """Two texts, or lists of lines, are the same: by their first difference, which takes no time to find in long ones."""
        lines, others = (text.splitlines(True) if isinstance(text, str) else text for text in (lines, others))
        for number, (line, other) in enumerate(zip(lines, others), 1):
            self.assertEqual(line, other, f"line {number}")
        self.assertEqual(len(lines), len(others))


class TheExample(Case):
    """The example of document 01."""

    def test_of_document_01(self):
        aic = Controller("aic", 0, 0)
        aic.write(0x014, 0x23)
        aic.write(0x094, 0xA0)
        aic.write(0x120, 0x20)
        self.assertEqual(aic.outputs, (0, 0, 0))
        aic.line(5, 1)
        self.assertEqual(aic.outputs, (1, 0, 0))
        self.assertEqual(aic.read(0x100), 0xA0)
        self.assertEqual(aic.outputs, (0, 0, 1))
        with self.assertRaises(Refused) as caught:
            aic.read(0x002)
        self.assertEqual(caught.exception.number, 1)
        self.assertEqual(str(caught.exception), "refused by 1: the offset is no multiple of 4")
        aic.write(0x130, 0)
        self.assertEqual(aic.outputs, (0, 0, 0))

    def test_of_the_docstring(self):
        self.assertEqual(doctest.testmod(wisteria).failed, 0)
        self.assertGreater(doctest.testmod(wisteria).attempted, 5)

    def test_of_the_page(self):
        """The lines of docs/EMBED.md in Python print what stands behind them."""
        page = (ROOT / "docs" / "EMBED.md").read_text()
        lines = re.search(r"\n    from wisteria import (?:.*\n)+?(?=\n\S)", page).group(0)
        done = subprocess.run([sys.executable, "-c", re.sub(r"(?m)^    ", "", lines)], cwd=ROOT / "python", capture_output=True, text=True, check=True)
        self.assertEqual(done.stdout.splitlines(), re.findall(r"print\(.*# (.*)", lines))
        self.assertTrue(done.stdout)


class Starts(Case):
    def test_of_every_kind(self):
        for number, (kind, (numbers, *_)) in enumerate(KINDS.items()):
            with self.subTest(kind):
                self.assertEqual(Controller(kind, *numbers).words, Controller(number, *numbers).words)
                self.assertEqual(len(Controller(kind, *numbers).words), 8192)

    def refused(self, refusal, *words):
        with self.assertRaises(Refused) as caught:
            Controller(*words)
        self.assertEqual(caught.exception.number, refusal)

    def test_beyond_a_limit(self):
        for words in [("coreinterrupt", 9, 1, 0, 0), ("coreinterrupt", 1, 33, 0, 0), ("coreinterrupt", 1, 1, 2, 0), ("cic", 0, 1, 1, 0)]:
            self.refused(10, *words)
        for words in [("cic", 1025, 1, 1, 0), ("cic", 1, 257, 1, 0), ("cic", 1, 1, 257, 0), ("indexed", 1, 1, 1, 0, 2)]:
            self.refused(10, *words)
        Controller("coreinterrupt", 8, 32, 1, 1)
        Controller("cic", 1024, 256, 256, 0xFFFFFFFF)

    def test_of_no_kind(self):
        self.refused(9, 5)
        self.refused(9, 0xFFFFFFFF, 1, 2)
        with self.assertRaisesRegex(ValueError, "'AIC' is no kind of controller: aic, coreinterrupt, cic, aintc, indexed"):
            Controller("AIC", 0, 0)

    def test_with_numbers_missing_or_too_many(self):
        with self.assertRaisesRegex(TypeError, r"takes 2 numbers \(external, lines\), not 1"):
            Controller("aic", 0)
        for words in [("aintc", 0), (3, 0), ("indexed", 1, 1, 1, 0), ("cic", 1, 1, 1, 0, 1)]:
            with self.assertRaises(TypeError):
                Controller(*words)


class Refusals(Case):
    def refused(self, number, controller, *step):
        before = controller.words
        with self.assertRaises(Refused) as caught:
            getattr(controller, step[0])(*step[1:])
        self.assertEqual(caught.exception.number, number)
        self.assertIsNone(caught.exception.offset)
        self.assertEqual(controller.words, before)

    def test_of_steps(self):
        aic, aintc, cic = Controller("aic", 0, 0), Controller("aintc"), Controller("cic", 40, 5, 3, 0)
        self.refused(1, aic, "read", 1)
        self.refused(2, aic, "read", 0x14C)
        self.refused(3, aic, "read", 0x120)
        self.refused(4, aic, "write", 0x100 + 0x08, 1)
        self.refused(6, aic, "line", 32, 1)
        self.refused(6, aic, "line", 31, 2)
        self.refused(6, cic, "write", 0x020, 40)
        self.refused(6, aintc, "read", 0x010, 2)
        self.refused(13, aintc, "read", 0x04C, 0)

    def test_words_are_those_of_the_page(self):
        numbers = (ROOT / "docs" / "REFUSALS.md").read_text().split("\n## In which order")[0]
        rows = {int(number): (words, who) for number, words, who in re.findall(r"(?m)^\| (\d+) \| (.*?) \| (.*) \|$", numbers)}
        self.assertEqual(list(wisteria._REFUSALS), [1, 2, 3, 4, 6, 8, 9, 10, 11, 12, 13, 14])
        for number in wisteria._REFUSALS:
            self.assertEqual(Refused(number).words, re.sub(r" \(\w+ of \[.*?\]\(.*?\)\)", "", rows[number][0]))
        self.assertTrue(rows[8][1].endswith(f"Of a typed table: {wisteria._TABLE_SLIP}"))

    def test_damaged_words_answer_12(self):
        chance = random.Random(12)
        for kind, (numbers, *_) in KINDS.items():
            sound, turned, damaged = Controller(kind, *numbers).words, 0, 0
            for place in [*range(64), *(chance.randrange(8 * len(sound)) for _ in range(300))]:
                words = bytearray(sound)
                words[place // 8] ^= 1 << place % 8
                controller, turned = Controller.of_words(bytes(words)), turned + 1
                try:
                    self.assertEqual(len(controller.outputs), 3)
                except Refused as refused:
                    damaged += 1
                    self.assertEqual(refused.number, 12)
                    for step in [("read", 0), ("write", 0, 1), ("line", 0, 1)]:
                        self.refused(12, controller, *step)
                    self.refused(12, controller, "steps", [("read", 0)])
                    self.refused(12, controller, "steps", [])
            self.assertGreater(damaged, turned // 2, kind)
        for words in [bytes(8192), b"\xff" * 8192, bytes(chance.randrange(256) for _ in range(8192))]:
            self.refused(12, Controller.of_words(words), "read", 0)
        with self.assertRaisesRegex(ValueError, "8192 bytes, not 8191"):
            Controller.of_words(bytes(8191))


class Numbers(Case):
    """A number that does not fit 32 bits is never cut."""

    def test_out_of_range(self):
        aic = Controller("aic", 0, 0)
        for wrong in [-1, 1 << 32, 1 << 64, -(1 << 32) + 0x100]:
            for call in [
                lambda: Controller("aic", wrong, 0), lambda: Controller("aic", 0, wrong), lambda: Controller(wrong),
                lambda: aic.read(wrong), lambda: aic.read(0, wrong), lambda: aic.write(wrong, 0), lambda: aic.write(0, wrong),
                lambda: aic.write(0, 0, wrong), lambda: aic.line(wrong, 0), lambda: aic.line(0, wrong),
                lambda: aic.steps([("read", wrong)]), lambda: aic.steps([("write", 0, wrong)]), lambda: aic.steps([(wrong, 0, 0)]),
                lambda: aic.steps([("line", 0, wrong)]), lambda: aic.steps([("read", 0, wrong)]), lambda: wisteria.bounds(b"", wrong),
            ]:  # fmt: skip
                with self.assertRaisesRegex(ValueError, f" is {wrong}, and a number from 0 to 4294967295 is asked for"):
                    call()
        self.assertEqual(aic.words, Controller("aic", 0, 0).words)
        aic.write(0x080, 0xFFFFFFFF)
        self.assertEqual(aic.read(0x080), 0xFFFFFFFF)

    def test_no_number(self):
        aic = Controller("aic", 0, 0)
        for wrong in ["0", 1.0, None, b"0"]:
            for call in [lambda: aic.read(wrong), lambda: aic.write(0, wrong), lambda: Controller("aic", wrong, 0), lambda: aic.steps([("read", wrong)])]:
                self.assertRaises(TypeError, call)
        for wrong in ["text", 5, None]:
            for function in [wisteria.listing, wisteria.explain, wisteria.figures]:
                self.assertRaises(TypeError, function, wrong)
        self.assertRaises(TypeError, wisteria.stack, 5)
        self.assertRaises(TypeError, wisteria.encode, None)

    def test_no_step(self):
        aic = Controller("aic", 0, 0)
        for wrong in [(), ("read",), ("read", 0, 1, 1), ("write", 0), ("write", 0, 0, 1, 1), ("line", 0), ("line", 0, 0, 1), (7, 0)]:
            with self.assertRaisesRegex(TypeError, "is no step"):
                aic.steps([("write", 0x080, 1), wrong])
        for wrong in [("wait", 0), ("wait", 0, 0), ("Read", 0)]:
            with self.assertRaisesRegex(ValueError, f"'{wrong[0]}' is no kind of step: read, write, line"):
                aic.steps([("write", 0x080, 1), wrong])
        with self.assertRaisesRegex(ValueError, "a number of step 2 is -1"):
            aic.steps([("write", 0x080, 1), ("line", 0, -1)])
        self.assertEqual(aic.words, Controller("aic", 0, 0).words)


class Copies(Case):
    def test_stand_by_themselves(self):
        aic = Controller("aic", 0, 0)
        aic.write(0x014, 0x23)
        for another in [aic.copy(), copy.copy(aic), copy.deepcopy(aic), pickle.loads(pickle.dumps(aic)), Controller.of_words(aic.words)]:
            self.assertEqual(another.read(0x014), 0x23)
            another.write(0x014, 0x45)
            self.assertEqual((aic.read(0x014), another.read(0x014)), (0x23, 0x45))

    def test_of_refusals(self):
        """From another process they come as they were."""
        for refused in [Refused(1), Refused(8, 5, "other words"), wisteria.TextRefused(3, 2, 4)]:
            another = pickle.loads(pickle.dumps(refused))
            self.assertEqual((type(another), str(another), vars(another)), (type(refused), str(refused), vars(refused)))

    def test_of_one_in_two_threads(self):
        """A call is whole, whichever thread makes it: a line that one puts up stays up beside the thousands of lines that the other moves."""
        aic, moves, lost = Controller("aic", 0, 0), [("line", 1, 1), ("line", 1, 0)] * 5000, []
        moving = threading.Thread(target=lambda: [aic.steps(moves) for _ in range(20)])
        moving.start()
        while moving.is_alive():
            for level in 1, 0:
                aic.line(2, level)
                if aic.read(0x10C) >> 2 & 1 != level:
                    lost.append(level)
        self.assertEqual((lost, aic.words), ([], Controller("aic", 0, 0).words))
        # by chance no call may have met another; so, too, that each keeps the interpreter's lock
        for name in wisteria._KEPT:
            self.assertTrue(getattr(wisteria._library(), name[len("wisteria_"):])._flags_ & _ctypes.FUNCFLAG_PYTHONAPI, name)


class BesideTheListing(Case):
    """Steps by chance through a controller, one by one and many at once, and the listing of the same steps as a trace."""

    NUMBER = 4000

    def drawn_steps(self, kind):
        chance = random.Random(f"20261117 {kind}")
        return [drawn(chance, kind) for _ in range(self.NUMBER)]

    def test_one_by_one(self):
        for number, (kind, (numbers, *_)) in enumerate(KINDS.items()):
            with self.subTest(kind):
                controller, steps, lines = Controller(kind, *numbers), self.drawn_steps(kind), []
                for at, step in enumerate(steps, 1):
                    refusal, value = carried_out(controller, step)
                    lines.append(f"{at} {'X' if refusal else step[0][0].upper()} {refusal or value:08X} {' '.join(map(str, controller.outputs))}")
                trace = wisteria.encode("\n".join([" ".join(map(str, [kind, *numbers])), *(statement(kind, step) for step in steps)]))
                self.assertEqual(trace[0], number)
                self.same_lines(wisteria.listing(trace).splitlines()[1:], lines)
                self.assertGreater(sum(" X " in line for line in lines), 50)
                self.assertLess(sum(" X " in line for line in lines), self.NUMBER * 3 // 4)
                self.assertGreater(len({line.split(" ", 3)[3] for line in lines}), 2)

    def test_many_at_once(self):
        for kind, (numbers, *_) in KINDS.items():
            with self.subTest(kind):
                one, many, steps = Controller(kind, *numbers), Controller(kind, *numbers), self.drawn_steps(kind)
                steps += [(7, 0, 0), (0, 0, 0, 1), (1, 0), (2, 0, 5), (3, 1, 1)]
                answers = many.steps(steps)
                named = {1: "read", 2: "write", 3: "line"}
                for at, step in enumerate(steps):
                    expected = (9, 0) if step[0] in (0, 7) else carried_out(one, (named.get(step[0], step[0]), *step[1:]))
                    self.assertEqual(answers[at], expected, f"step {at + 1}, {step}")
                self.assertEqual(many.words, one.words)
                self.assertEqual(many.steps([]), [])
                self.assertEqual(many.steps(iter([("read", 1)])), [wisteria.Answer(refusal=1, value=0)])


class Traces(Case):
    def test_listings_are_those_of_the_program(self):
        self.assertGreater(len(TRACES), 40)
        for trace in TRACES:
            with self.subTest(trace.name):
                self.same_lines(wisteria.listing(trace.read_bytes()), trace.with_suffix(".listing").read_text())
                self.same_lines(wisteria.listing(bytearray(trace.read_bytes())), run(trace))

    def test_explanations_are_those_of_the_program(self):
        for trace in TRACES:
            with self.subTest(trace.name):
                self.same_lines(wisteria.explain(memoryview(trace.read_bytes())), run("explain", trace))

    def test_texts_are_encoded(self):
        for text in sorted((ROOT / "examples").glob("*.txt")):
            with self.subTest(text.name):
                self.assertEqual(wisteria.encode(text.read_text()), text.with_suffix(".trace").read_bytes())

    def test_texts_are_refused_as_by_the_program(self):
        long = "aic 0 0\n" + "write 0x014 0xFFFFFFFF\n" * 10000
        for text in ["", "\n# AIC\nAIC 0 0", "aic 0 0\nraed 0", "aic 0 0\nwrite 0x14", "aintc\nread 0x10 1 1", long, "aic 0 0 #é\nread é", " " * 5242881]:
            done = subprocess.run([ROOT / "run", "encode"], input=text.encode(), capture_output=True, check=False)
            with self.assertRaises(wisteria.TextRefused) as caught:
                wisteria.encode(text)
            self.assertEqual(str(caught.exception), done.stderr.decode("ascii").splitlines()[-1])

    def test_the_longest(self):
        self.assertEqual(wisteria.listing(b""), "E 8 0\n")
        self.assertEqual(wisteria.listing(bytes(65537)), "E 11 65536\n")
        self.assertEqual(wisteria.listing(bytes(10000000)), "E 11 65536\n")
        longest = b"\3" + b"\2\xe8\1\1\0" * 13107
        self.assertEqual(len(longest), 65536)
        self.same_lines(wisteria.listing(longest), run(told=longest))
        most = b"\3" + b"\3\1\1" * 21000
        self.same_lines(wisteria.listing(most), run(told=most))
        self.same_lines(wisteria.explain(most), run("explain", told=most))

    def test_figures_are_those_of_the_report(self):
        for trace in TRACES:
            with self.subTest(trace.name):
                rows = re.findall(
                    r"(?m)^source \d+: handlers started (\d+), most handlers started while it waited (\d+), most entries open while it was open (\d+)$",
                    run("report", told=f"{trace}\n".encode()),
                )
                self.assertEqual(len(rows), 32)
                self.same_lines(wisteria.figures(trace.read_bytes()), [tuple(map(int, row)) for row in rows])
        tie = wisteria.figures((ROOT / "examples" / "tie-lower-number.trace").read_bytes())
        self.assertEqual(tie[7], wisteria.Figures(handlers_started=1, most_started_while_it_waited=2, most_entries_open=1))

    def test_bounds_are_those_worked_out_by_hand(self):
        trace, by_hand = (ROOT / "examples" / "bound.trace").read_bytes(), (ROOT / "examples" / "bound.waits").read_text().splitlines()
        found = wisteria.bounds(trace, 9)
        self.assertEqual(by_hand[-1].split(";")[0], f"source 9: waits {found.waits}, not ended {found.waits_unended}, without a bound {found.waits_unbounded}")
        self.assertIn(f"written by step {found.first_unbounded_step}", by_hand[1])
        self.assertTrue(
            by_hand[0].endswith(
                f"at most {found.handlers} handlers: pending {found.handlers_of_pending}, edges {found.handlers_of_edges}, commands {found.handlers_of_commands}, "
                f"turns {found.handlers_of_turns}, closed while active {found.handlers_of_closed_active}, remembered {found.handlers_of_remembered}"
            )
        )
        self.assertEqual(sum(found[5:]), found.handlers)
        for other in [0, 32, 0xFFFFFFFF]:
            self.assertEqual(set(wisteria.bounds(trace, other)), {0})


class Tables(Case):
    def test_every_example(self):
        tables = sorted((ROOT / "examples").glob("*.table"))
        self.assertGreater(len(tables), 10)
        for table in tables:
            with self.subTest(table.name):
                line = table.with_suffix(".line").read_text()
                try:
                    self.assertEqual(f"{wisteria.stack(table.read_text())} bytes\n", line)
                except Refused as refused:
                    self.assertEqual(" ".join(["E", *(str(part) for part in (refused.number, refused.offset) if part is not None)]) + "\n", line)

    def test_slips_are_told(self):
        with self.assertRaises(Refused) as caught:
            wisteria.stack("0 0 zero")
        self.assertEqual(
            str(caught.exception),
            "refused by 8 at byte 4: a number is missing, is none, or something stands behind the last; the word of forced sources has more than 32 bits",
        )
        with self.assertRaises(Refused) as caught:
            wisteria.stack(b" " * 65537)
        self.assertEqual((caught.exception.number, caught.exception.offset), (11, 65536))
        self.assertEqual(str(caught.exception), "refused by 11 at byte 65536: more than 65,536 bytes")


class TheLibrary(Case):
    """What is said where there is none."""

    def told(self, library, call):
        done = subprocess.run(
            [sys.executable, "-c", f"import wisteria\ntry: {call}\nexcept wisteria.LibraryMissing as missing: print(missing)"],
            cwd=ROOT / "python", env={**os.environ, "WISTERIA_LIBRARY": str(library)}, capture_output=True, text=True, check=True,
        )  # fmt: skip
        self.assertTrue(done.stdout.endswith(f"; {wisteria._HOW}\n"), done.stdout)
        return done.stdout[: -len(wisteria._HOW) - 3]

    def test_missing(self):
        self.assertEqual(self.told("/no/such/library.so", "wisteria.listing(b'')"), "the library is not there: no /no/such/library.so")

    def test_is_looked_for(self):
        """By the variable, else beside the module, else in the checkout."""
        with tempfile.TemporaryDirectory() as folder:
            here = Path(folder, "project", "wisteria.py")
            here.parent.mkdir()
            shutil.copy(wisteria.__file__, here)
            beside, built = here.with_name("libwisteria.so"), Path(folder, "target", "library", "libwisteria.so")
            call = [sys.executable, "-B", "-c", "import wisteria; wisteria.listing(b''); print(wisteria._loaded.path)"]
            free = {name: value for name, value in os.environ.items() if name != "WISTERIA_LIBRARY"}
            told = subprocess.run(call, cwd=here.parent, env=free, capture_output=True, text=True, check=False).stderr
            self.assertIn(f"LibraryMissing: the library is not there: no {beside.resolve()} and no {built.resolve()}; {wisteria._HOW}", told)
            built.parent.mkdir(parents=True)
            for place in built, beside:
                shutil.copy(wisteria._library().path, place)
                found = subprocess.run(call, cwd=here.parent, env=free, capture_output=True, text=True, check=True).stdout
                self.assertEqual(found, f"{place.resolve()}\n")
            named = {**free, "WISTERIA_LIBRARY": str(built)}
            self.assertEqual(subprocess.run(call, cwd=here.parent, env=named, capture_output=True, text=True, check=True).stdout, f"{built.resolve()}\n")

    def test_no_library(self):
        self.assertIn(Path(__file__).name, self.told(Path(__file__).resolve(), "wisteria.Controller('aintc')"))

    def test_of_something_else(self):
        library = next(line.split()[-1] for line in Path("/proc/self/maps").read_text().splitlines() if "libc.so.6" in line or "libc-" in line)
        self.assertEqual(self.told(library, "wisteria.Controller('aintc')"), f"{Path(library).resolve()} has no function wisteria_start")

    def test_versions_agree(self):
        self.assertEqual(wisteria.__version__, (ROOT / "VERSION").read_text().strip())

    def test_constants_are_the_header_s(self):
        header = (ROOT / "include" / "wisteria.h").read_text()
        for name, value in [("LONGEST", wisteria.LONGEST), ("LONGEST_TEXT", wisteria.LONGEST_TEXT), ("LIMIT", wisteria.LIMIT), ("WORDS", wisteria._WORDS)]:
            self.assertIn(f"\n#define WISTERIA_{name} {value}\n", header)
        for name, (number, _) in wisteria._KINDS.items():
            self.assertRegex(header, rf"\n    WISTERIA_{name.upper()} = {number}\b")


if __name__ == "__main__":
    unittest.main()
