"""The bench in Python: its names are the header's, its answers the program's, its errors say what is wrong."""

import copy
import ctypes
import enum
import inspect
import math
import os
import pathlib
import pickle
import re
import shutil
import subprocess
import sys
import tempfile
import unittest

ROOT = pathlib.Path(__file__).resolve().parent.parent.parent
sys.path[:0] = [str(ROOT / "tools"), str(ROOT / "tools/tests")]

import made_up
import pmc330
import scan_events
import trace_text
from pmc330 import Board, Interrupt, Range, Refused, Register, volts


def run_lines(text):
    """What pmc330_run prints for a text of calls."""
    trace = trace_text.encoded(text)
    assert len(trace) <= trace_text.PROGRAMS_TAKE
    return subprocess.run([ROOT / "target/bin/pmc330_run"], input=trace, capture_output=True, check=True).stdout.decode()


def stepped_lines(text):
    """The same lines from a board that is stepped here."""
    range, calls = scan_events.calls_of(text)
    board = Board(range)
    answers = [scan_events.answer_of(board, name, numbers) for name, numbers in calls]
    return "".join(f"{index} {number} {value:08X}\n" for index, (number, value) in enumerate(answers, 1))


def scanning():
    """A board that has stored one code and is to store more."""
    board = Board(Range.PM10V)
    board.input(0, 2_500_000)
    board.write(16, Register.CONTROL, 0x1309)
    board.write(16, Register.INTERRUPT, Interrupt.ENABLE)
    board.write(16, Register.START_CONVERT, 1)
    board.advance(64)
    return board


# What stands before a member's name in the header, by the enum that it is a member of.
PREFIXES = {
    "Range": "RANGE_", "Register": "", "Format": "FORMAT_", "Trigger": "TRIGGER_", "Acquisition": "ACQUISITION_",
    "Scan": "SCAN_", "Timer": "TIMER_", "InterruptOn": "INTERRUPT_ON_", "Interrupt": "INTERRUPT_", "Gain": "GAIN_",
    "Refusal": "",
}  # fmt: skip

# The numbers that a function gives, by its name: at each argument.
PLACES = {"Register.gain": range(4), "Register.mailbox": range(32)}


def in_c(enum_name, name):
    """A member's name in C."""
    name = name.removeprefix({"Range": "FROM_", "Gain": "TIMES_"}.get(enum_name, ""))
    if name.startswith("CALIBRATION_"):
        return f"PMC330_ACQUISITION(PMC330_{name})"
    return "0" if (enum_name, name) == ("Timer", "OFF") else f"PMC330_{PREFIXES[enum_name]}{name}"


def named_numbers():
    """Every number that the module names for everyone, by its name in C. A name of another kind has none in it."""
    numbers = {}
    for public in pmc330.__all__:
        named = getattr(pmc330, public)
        if isinstance(named, type) and issubclass(named, enum.IntEnum):
            numbers |= {in_c(public, name): int(member) for name, member in named.__members__.items()}
            for name in [name for name, kind in vars(named).items() if isinstance(kind, staticmethod) and name[0] != "_"]:
                of = getattr(named, name)
                numbers |= {f"PMC330_{name.upper()}({place}U)": of(place) for place in PLACES[f"{public}.{name}"]}
        else:
            assert callable(named) and not any(isinstance(it, int) for it in getattr(named, "__dict__", {}).values()), public
    return numbers


class Names(unittest.TestCase):
    def test_are_those_of_the_header(self):
        numbers = named_numbers()
        self.assertEqual(dict(zip(numbers, self.values_in_c(numbers))), numbers)

    def test_leave_out_none_of_the_header(self):
        """Each enum has all of the header's names that begin as its own do; the refusals are those of a board's calls."""
        header = (ROOT / "include/pmc330.h").read_text("utf-8")
        begun = tuple(f"PMC330_{prefix}" for prefix in PREFIXES.values() if prefix)
        of_header = re.findall(r"^#define (PMC330_\w+) ", header, re.M)
        names = {name for name in of_header if name.startswith(begun) and not name.endswith(("_MASK", "_TICKS"))}
        names |= {f"PMC330_ACQUISITION({name})" for name in of_header if name.startswith("PMC330_CALIBRATION_")}
        self.assertEqual(names - set(named_numbers()), set())
        self.assertEqual(sorted(pmc330.Refusal), [*range(1, 15), 22])

    def test_that_are_not_for_everyone_are_those_of_the_header(self):
        numbers = {
            "PMC330_VERSION": pmc330._VERSION,
            "sizeof(pmc330_board)": ctypes.sizeof(pmc330._Contents),
            "PMC330_TRACE_MAX": trace_text.C_TAKES,
            "PMC330_CONVERSION_TICKS": scan_events.CONVERSION,
            "PMC330_TRIGGER_TICKS": scan_events.TRIGGERS,
        }
        numbers |= {f"PMC330_HEADING[{place}]": byte for place, byte in enumerate(trace_text.HEADING)}
        for name, (tag, fields) in trace_text.FIELDS.items():
            numbers[f"PMC330_TAG_{name.upper()}"] = tag
            numbers[f"PMC330_LENGTH_{name.upper()}"] = sum(size for _, size, _ in fields)
        self.assertEqual(dict(zip(numbers, self.values_in_c(numbers))), numbers)

    def test_of_places_that_are_none_are_refused(self):
        for call, words in [
            (lambda: Register.gain(4), "the group 4 is not 0 to 3"),
            (lambda: Register.mailbox(32), "the slot 32 is not 0 to 31"),
            (lambda: Register.mailbox(-1), "the slot -1 is not 0 to 31"),
        ]:
            with self.assertRaisesRegex(ValueError, f"^{words}$"):
                call()

    def test_are_all_for_everyone(self):
        is_own = lambda it: not inspect.ismodule(it) and getattr(it, "__module__", "pmc330") == "pmc330"
        public = {name for name, it in vars(pmc330).items() if name[0] != "_" and is_own(it)}
        self.assertEqual(set(pmc330.__all__), public)
        enums = {name for name in pmc330.__all__ if isinstance(getattr(pmc330, name), enum.EnumMeta)}
        self.assertEqual(set(PREFIXES), enums)

    def values_in_c(self, names):
        lines = "".join(f'printf("%lu\\n", (unsigned long)({name}));' for name in names)
        source = f'#include <stdio.h>\n#include "pmc330.h"\nint main(void) {{ {lines} return 0; }}'
        with tempfile.TemporaryDirectory() as folder:
            command = ["cc", f"-I{ROOT / 'include'}", "-x", "c", "-", "-o", f"{folder}/names", "-xnone", pmc330._ARCHIVE]
            subprocess.run(command, input=source, text=True, check=True)
            said = subprocess.run([f"{folder}/names"], capture_output=True, text=True, check=True).stdout
        return [int(line) for line in said.split()]


class Answers(unittest.TestCase):
    def test_are_those_of_the_program_in_the_examples(self):
        examples = sorted((ROOT / "examples").glob("*.calls"))
        self.assertGreaterEqual(len(examples), 11)
        for path in examples:
            text = path.read_text("utf-8")
            self.assertEqual(stepped_lines(text), run_lines(text), path.name)

    def test_are_those_of_the_program_on_made_up_calls(self):
        numbers, stores, calls = set(), 0, 0
        for seed in range(40):
            text = made_up.text(seed, 2000)
            lines = run_lines(text)
            self.assertEqual(stepped_lines(text), lines, f"seed {seed}")
            for (name, _), line in zip(scan_events.calls_of(text)[1], lines.splitlines()):
                _, number, value = line.split()
                numbers.add(int(number))
                stores += int(value, 16) if name == "advance" else 0
                calls += 1
        self.assertEqual(numbers, set(pmc330.Refusal) - {14} | {0})
        self.assertGreater(calls, 80_000)
        self.assertGreater(stores, 4_000)

    def test_of_a_look_are_its_code_and_its_bits(self):
        board = scanning()
        self.assertEqual(board.look(0), (0xA000, True, False))
        board.advance(120)
        self.assertEqual(board.look(0), (0xA000, True, True))
        board.clear(0)
        self.assertEqual(board.look(0), (0xA000, False, False))

    def test_of_the_line_and_the_next_store(self):
        board = scanning()
        self.assertIs(board.line(), True)
        self.assertEqual(board.next_store(), 120)
        self.assertEqual(board.advance(119), 0)
        self.assertEqual(board.next_store(), 1)
        board.write(16, Register.INTERRUPT, Interrupt.RELEASE)
        self.assertIs(board.line(), False)
        board.write(16, Register.CONTROL, 0)
        self.assertEqual(board.next_store(), 0)

    def test_are_nothing_where_a_call_gives_nothing(self):
        board = scanning()
        nothings = [board.input(0, -1), board.trigger(), board.clear(0), board.write(8, 0, 0), board.reset()]
        self.assertEqual(nothings, [None] * 5)


class Refusals(unittest.TestCase):
    def test_say_their_number_and_the_reason(self):
        idle, busy = Board(Range.PM5V), scanning()
        for number, board, call in [
            (1, idle, lambda board: board.read(7, 0)),
            (2, idle, lambda board: board.read(16, 0x101)),
            (3, idle, lambda board: board.read(16, 0x28)),
            (4, idle, lambda board: board.write(8, Register.PRESCALER, 256)),
            (5, idle, lambda board: board.write(16, Register.mailbox(0), 0)),
            (6, busy, lambda board: board.write(16, Register.TIMER, 0)),
            (7, idle, lambda board: board.write(16, Register.CONTROL, 0x0010)),
            (8, idle, lambda board: board.write(16, Register.START_CONVERT, 1)),
            (9, with_control(0x0400, 0x1000), lambda board: board.write(16, Register.START_CONVERT, 1)),
            (10, with_control(0x0100, 0), lambda board: board.write(16, Register.START_CONVERT, 1)),
            (11, idle, lambda board: board.input(32, 0)),
            (12, idle, lambda board: board.input(0, -35_000_001)),
            (13, idle, lambda board: board.advance(16_777_217)),
            (14, idle, lambda _: Board(4)),
            (22, idle, lambda board: board.look(32)),
            (22, idle, lambda board: board.clear(32)),
        ]:
            before = board.save()
            with self.assertRaises(Refused) as caught:
                call(board)
            refused = pickle.loads(pickle.dumps(caught.exception))
            self.assertEqual((refused.number, str(refused)), (number, f"refused with {number}: {REASONS[number]}"))
            self.assertEqual(refused.reason, REASONS[number])
            self.assertEqual(board.save(), before)

    def test_are_not_made_of_numbers_that_c_does_not_hold(self):
        board = scanning()
        before = board.save()
        for call in [
            lambda: board.read(2**32 + 16, 0x80),
            lambda: board.read(16, -1),
            lambda: board.write(32, 0, 2**32),
            lambda: board.input(0, 2**31),
            lambda: board.input(0, -(2**31) - 1),
            lambda: board.advance(2**32),
            lambda: board.look(-1),
            lambda: board.clear(2**32),
            lambda: Board(-1),
        ]:
            with self.assertRaisesRegex(ValueError, "^the [a-z]+ -?[0-9]+ is not a number of 32 bits$"):
                call()
        for call in [lambda: board.advance(1.0), lambda: board.read("16", 0), lambda: Board(None)]:
            with self.assertRaises(TypeError):
                call()
        self.assertEqual(board.save(), before)


REASONS = {
    1: "the width is not 8, 16 or 32",
    2: "the offset is 256 or more, or no multiple of the width in bytes",
    3: "there is no register at the offset",
    4: "the value does not fit the width",
    5: "a write to a register that is read only, or a read of Start Convert",
    6: "a cycle runs or is armed, and the write is neither to Interrupt, nor to Control with scan off as its result, "
    "nor to Start Convert without bit 0",
    7: "a code in Control that is not used, or a Start or End Channel above 31",
    8: "scan is off",
    9: "Start Channel is above End Channel, or End Channel is above 15 in differential",
    10: "a uniform mode with the timer off, or prescaler * timer below 64 in a uniform mode or in burst continuous "
    "with the timer enabled",
    11: "the channel is above 31",
    12: "the voltage is outside -35,000,000 to 55,000,000 microvolts",
    13: "an advance of more than 16,777,216 ticks",
    14: "the range is above 3",
    22: "the slot is above 31",
}


def with_control(control, channels):
    board = Board(Range.PM5V)
    board.write(16, Register.CONTROL, control)
    board.write(16, Register.CHANNELS, channels)
    return board


class Saving(unittest.TestCase):
    def test_gives_the_same_board_later(self):
        board = scanning()
        saved = board.save()
        board.advance(1000)
        board.input(0, 0)
        other = Board(Range.FROM_0_TO_5V)
        other.restore(saved)
        self.assertNotEqual(other, board)
        board.restore(saved)
        self.assertEqual(other, board)
        self.assertEqual([board.advance(1000), board.read(16, 0x80)], [other.advance(1000), other.read(16, 0x80)])

    def test_of_a_copy_is_its_own(self):
        board = scanning()
        for copied in [copy.copy(board), copy.deepcopy(board), pickle.loads(pickle.dumps(board))]:
            self.assertEqual(copied, board)
            copied.clear(0)
            self.assertNotEqual(copied, board)
        self.assertNotEqual(board, board.save())

    def test_takes_no_other_bytes(self):
        board = scanning()
        before = board.save()
        for wrong in [b"", before[:-1], before + b"\0"]:
            with self.assertRaisesRegex(ValueError, f"^no saved board: it has {len(wrong)} bytes, not 288$"):
                board.restore(wrong)
        for wrong in ["x" * 288, None]:
            with self.assertRaises(TypeError):
                board.restore(wrong)
        self.assertEqual(board.save(), before)
        self.assertEqual(before[:4], (2).to_bytes(4, sys.byteorder))
        board.restore(bytearray(before))
        self.assertEqual(board.save(), before)

    def test_takes_no_board_of_another_version(self):
        """Version 1 had 324 bytes. A board of as many as now is none of this version either."""
        board = scanning()
        before = board.save()
        for version, size in [(1, 324), (1, 284), (3, 284), (3, 300)]:
            words = f"^a board saved under version {version} of the part, not 2: make its calls again instead$"
            saved = version.to_bytes(4, sys.byteorder) + bytes(size)
            with self.assertRaisesRegex(ValueError, words):
                board.restore(saved)
            with self.assertRaisesRegex(ValueError, words):
                pmc330._restored(saved)
        self.assertEqual(board.save(), before)


class Volts(unittest.TestCase):
    def test_are_the_lowest_that_give_the_code(self):
        """By the formula of the code (data sheet, "Code of a voltage"), in whole microvolts."""
        for range, (low, width) in enumerate([(-5, 10), (-10, 20), (0, 5), (0, 10)]):
            for gain in [0, 1, 2, 3]:
                code_of = lambda v: (v * 2**gain - low * 10**6) * 65536 // (width * 10**6)
                for code in [0, 1, 2, 4095, 0x7FFF, 0x8000, 0x8001, 54321, 0xFFFE, 0xFFFF]:
                    microvolts = volts(code, range, gain) * 1_000_000
                    least = math.ceil(round(microvolts, 6))
                    self.assertEqual((code_of(least), code_of(least - 1)), (code, code - 1), (range, gain, code))
                    self.assertEqual(volts(code ^ 0x8000, range, gain, pmc330.Format.TWOS_COMPLEMENT) * 1_000_000, microvolts)

    def test_are_asked_of_codes(self):
        for code in [-1, 65536]:
            with self.assertRaisesRegex(ValueError, f"^the code {code} is not 0 to 65,535$"):
                volts(code, Range.PM5V)
        with self.assertRaises(ValueError):
            volts(0, 4)
        with self.assertRaises(TypeError):
            volts(1.5, 1)


class Part(unittest.TestCase):
    """The shared object, made in a copy of what it is made from."""

    def setUp(self):
        folder = tempfile.TemporaryDirectory()
        self.addCleanup(folder.cleanup)
        self.root = pathlib.Path(folder.name) / "a copy"
        shutil.copytree(ROOT / "tools", self.root / "tools")
        self.archive = self.root / "target/staticlib/libpmc330_c.a"
        self.archive.parent.mkdir(parents=True)
        shutil.copy(pmc330._ARCHIVE, self.archive)
        self.shared = self.root / "target/python/pmc330.so"

    def said(self, *command, path=None):
        """What a Python program says, and how it ends: here the opening of a board."""
        command = command or ["-c", "import pmc330\ntry: pmc330.Board(1)\nexcept pmc330.NotBuilt as e: print(e)"]
        environment = {"PATH": path or os.environ["PATH"], "PYTHONPATH": str(self.root / "tools")}
        ended = subprocess.run(
            [sys.executable, "-B", *command], input="range 1\n", capture_output=True, text=True, env=environment
        )
        return ended.stdout, ended.stderr, ended.returncode

    def test_is_made_at_first_and_again_when_the_archive_is_newer(self):
        self.assertFalse(self.shared.exists())
        self.assertEqual(self.said(), ("", "", 0))
        made = self.shared.stat().st_mtime_ns
        self.assertEqual(self.said(), ("", "", 0))
        self.assertEqual(self.shared.stat().st_mtime_ns, made)
        for newer in [self.archive, self.root / "tools/pmc330.py"]:
            newer.touch()
            self.assertEqual(self.said(), ("", "", 0))
            self.assertGreater(self.shared.stat().st_mtime_ns, made)
            made = self.shared.stat().st_mtime_ns
        os.utime(self.archive, ns=(made, made))
        self.assertEqual(self.said(), ("", "", 0))
        self.assertGreater(self.shared.stat().st_mtime_ns, made)
        self.assertEqual([path.name for path in self.shared.parent.iterdir()], ["pmc330.so"])

    def test_is_missed_with_a_line(self):
        self.said()
        self.archive.unlink()
        words = f"{self.archive} is missing: run `{self.root}/tools/build pmc330_c`, which makes it\n"
        self.assertEqual(self.said(), (words, "", 0))
        self.assertEqual(self.said(str(self.root / "tools/scan_picture.py")), ("", "scan_picture: " + words, 1))

    def test_needs_a_compiler(self):
        words = "there is no C compiler `cc`: run `apt-get install gcc`, or what installs one here\n"
        self.assertEqual(self.said(path=str(self.root)), (words, "", 0))
        self.assertEqual(self.said(str(self.root / "tools/scan_picture.py"), path=str(self.root)), ("", "scan_picture: " + words, 1))

    def test_says_what_the_compiler_says(self):
        self.archive.write_text("no archive")
        out, err, code = self.said()
        self.assertRegex(out, rf"^cc failed \(.*{self.archive}.*\): run `{self.root}/tools/build pmc330_c` again\n$")
        self.assertEqual((err, code, self.shared.exists()), ("", 0, False))

    def test_of_another_archive_is_not_loaded(self):
        object_file = self.root / "other.o"
        subprocess.run(["cc", "-c", "-x", "c", "-", "-o", object_file], input="int x;", text=True, check=True)
        self.archive.unlink()
        subprocess.run(["ar", "rc", self.archive, object_file], check=True)
        out, err, code = self.said()
        self.assertRegex(out, rf"^cc failed \(.*required symbol .pmc330_[a-z_]*' not defined\): run `{self.root}/tools/build pmc330_c` again\n$")
        self.assertEqual((err, code, self.shared.exists()), ("", 0, False))

    def test_that_cannot_be_loaded_or_written_is_told(self):
        self.said()
        self.shared.write_bytes(b"")
        self.assertRegex(self.said()[0], rf"^{self.shared} can't be made or loaded \(.*\): run `rm -rf {self.shared.parent}` and ")
        shutil.rmtree(self.shared.parent)
        self.shared.parent.write_text("a file")
        self.assertRegex(self.said()[0], rf"^{self.shared} can't be made or loaded \(.*\): run `rm -rf {self.shared.parent}` and ")

    def test_is_not_needed_for_the_names(self):
        shutil.rmtree(self.root / "target")
        program = "from pmc330 import *; print(Register.CONTROL + 0, Scan.BURST_SINGLE + 0, volts(0xA000, Range.PM10V))"
        self.assertEqual(self.said("-c", program), ("4 1024 2.5\n", "", 0))


class Readme(unittest.TestCase):
    def test_first_session_prints_what_it_says(self):
        readme = (ROOT / "README.md").read_text("utf-8")
        session, printed = re.search(r"```python\n(from pmc330.*?)```\n\n.*?\n\n    ([^\n]*)\n", readme, re.S).groups()
        command = [sys.executable, "-B", "-c", session]
        environment = {**os.environ, "PYTHONPATH": str(ROOT / "tools")}
        said = subprocess.run(command, capture_output=True, text=True, check=True, env=environment)
        self.assertEqual(said.stdout, printed + "\n")


if __name__ == "__main__":
    unittest.main()
