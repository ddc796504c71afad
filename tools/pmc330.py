"""A virtual PMC330 to step from Python, call by call.

    PYTHONPATH=tools python3
    >>> from pmc330 import *
    >>> board = Board(Range.PM10V)
    >>> board.write(16, Register.CONTROL, Format.STRAIGHT | Acquisition.SINGLE_ENDED | Scan.BURST_SINGLE)

A Board makes the calls of include/pmc330.h, which says what the board does; the names here are the header's.
A refused call does nothing and raises Refused, which says why. A number that C's 32 bits do not hold is no call: it
raises ValueError.

The board is the proved one, in target/staticlib/libpmc330_c.a, which `tools/build pmc330_c` makes. At the first board a
shared object is made from it with `cc`, below target/, and again when the archive is newer.
"""

import ctypes
import enum
import functools
import operator
import os
import pathlib
import subprocess
import sys
import tempfile
from typing import NamedTuple

__all__ = [
    "Acquisition", "Board", "Format", "Gain", "Interrupt", "InterruptOn", "Look", "NotBuilt", "Range", "Refusal",
    "Refused", "Register", "Scan", "Timer", "Trigger", "volts",
]  # fmt: skip


# ---- Names ----


class Range(enum.IntEnum):
    """Of a new board."""

    PM5V = 0  # -5 V to 5 V
    PM10V = 1  # -10 V to 10 V
    FROM_0_TO_5V = 2
    FROM_0_TO_10V = 3


class Register(enum.IntEnum):
    """The offset of a register. A word is read and written with width 16, a byte with width 8."""

    INTERRUPT = 0x00
    CONTROL = 0x04
    PRESCALER_WORD = 0x08  # the prescaler in bits 15-8
    PRESCALER = 0x09  # a byte
    TIMER = 0x0C
    CHANNELS = 0x10  # Start Channel in bits 7-0, End Channel in bits 15-8
    END_CHANNEL = 0x11  # a byte
    NEW_DATA_LOW = 0x14  # slots 0 to 15
    NEW_DATA_HIGH = 0x18
    MISSED_DATA_LOW = 0x1C
    MISSED_DATA_HIGH = 0x20
    START_CONVERT = 0x24
    START_CHANNEL = 0x10  # a byte, at the offset of the word

    @staticmethod
    def gain(group):
        """Of the gains of channels 8 * group to 8 * group + 7, two bits each."""
        return 0x40 + 4 * _fitting("group", group, 0, 3, "0 to 3")

    @staticmethod
    def mailbox(slot):
        """Of a mailbox. A read drops its slot's New and Missed bits."""
        return 0x80 + 4 * _fitting("slot", slot, 0, 31, "0 to 31")


# The fields of Control, to be joined by |. A field that is left out has its value 0.


class Format(enum.IntEnum):
    TWOS_COMPLEMENT = 0x0000
    STRAIGHT = 0x0001


class Trigger(enum.IntEnum):
    OFF = 0x0000
    INPUT = 0x0002
    OUTPUT = 0x0004


class Acquisition(enum.IntEnum):
    DIFFERENTIAL = 0x0000
    SINGLE_ENDED = 0x0008
    CALIBRATION_4900000_UV = 0x0018
    CALIBRATION_2450000_UV = 0x0020
    CALIBRATION_1225000_UV = 0x0028
    CALIBRATION_612500_UV = 0x0030
    CALIBRATION_0_UV = 0x0038


class Scan(enum.IntEnum):
    OFF = 0x0000
    UNIFORM_CONTINUOUS = 0x0100
    UNIFORM_SINGLE = 0x0200
    BURST_CONTINUOUS = 0x0300
    BURST_SINGLE = 0x0400
    EXTERNAL_TRIGGER_ONLY = 0x0500


class Timer(enum.IntEnum):
    OFF = 0x0000
    ENABLE = 0x0800


class InterruptOn(enum.IntEnum):
    NONE = 0x0000
    EACH_STORE = 0x1000
    LAST_STORE = 0x2000  # of a pass


class Interrupt(enum.IntEnum):
    """The bits of the Interrupt register."""

    ENABLE = 0x0001
    PENDING = 0x0002
    RELEASE = 0x8000


class Gain(enum.IntEnum):
    """The two bits of a channel in its gain word."""

    TIMES_1 = 0
    TIMES_2 = 1
    TIMES_4 = 2
    TIMES_8 = 3


class Refusal(enum.IntEnum):
    """Why a call of a board is refused: the number, and the reason in words."""

    def __new__(cls, number, reason):
        refusal = int.__new__(cls, number)
        refusal._value_ = number
        refusal.reason = reason
        return refusal

    BAD_WIDTH = 1, "the width is not 8, 16 or 32"
    BAD_OFFSET = 2, "the offset is 256 or more, or no multiple of the width in bytes"
    UNMAPPED = 3, "there is no register at the offset"
    BAD_VALUE = 4, "the value does not fit the width"
    BAD_DIRECTION = 5, "a write to a register that is read only, or a read of Start Convert"
    BUSY = (
        6,
        "a cycle runs or is armed, and the write is neither to Interrupt, nor to Control with scan off as its result, "
        "nor to Start Convert without bit 0",
    )
    BAD_CODE = 7, "a code in Control that is not used, or a Start or End Channel above 31"
    NO_SCAN = 8, "scan is off"
    BAD_CHANNELS = 9, "Start Channel is above End Channel, or End Channel is above 15 in differential"
    BAD_INTERVAL = (
        10,
        "a uniform mode with the timer off, or prescaler * timer below 64 in a uniform mode or in burst continuous "
        "with the timer enabled",
    )
    BAD_CHANNEL = 11, "the channel is above 31"
    BAD_VOLTAGE = 12, "the voltage is outside -35,000,000 to 55,000,000 microvolts"
    BAD_TICKS = 13, "an advance of more than 16,777,216 ticks"
    BAD_RANGE = 14, "the range is above 3"
    BAD_SLOT = 22, "the slot is above 31"


class Refused(Exception):
    """A call that was refused. The board is as it was."""

    def __init__(self, number):
        super().__init__(number)
        self.refusal = Refusal(number)

    @property
    def number(self):
        return int(self.refusal)

    @property
    def reason(self):
        return self.refusal.reason

    def __str__(self):
        return f"refused with {self.number}: {self.reason}"


class NotBuilt(Exception):
    """There is no board to call yet; the text says which command to run."""


# ---- The board ----


class Look(NamedTuple):
    """What a look at a mailbox shows."""

    code: int
    new: bool
    missed: bool


class Board:
    """A virtual PMC330. Time passes in `advance` alone; a tick is 1/8 microsecond."""

    def __init__(self, range):
        self._contents = _Contents()
        self._call("open", _unsigned("range", range))

    def read(self, width, offset):
        """What a register read of 8, 16 or 32 bits gives. That of a mailbox drops its slot's New and Missed bits."""
        return self._call("read", _unsigned("width", width), _unsigned("offset", offset))

    def write(self, width, offset, value):
        """A register write of 8, 16 or 32 bits."""
        self._call("write", _unsigned("width", width), _unsigned("offset", offset), _unsigned("value", value))

    def input(self, channel, microvolts):
        """The voltage at a channel, for the conversions that begin in later calls."""
        self._call("input", _unsigned("channel", channel), _signed("microvolts", microvolts))

    def advance(self, ticks):
        """Time passes; the number of stores made in it."""
        return self._call("advance", _unsigned("ticks", ticks))

    def trigger(self):
        """An external trigger."""
        self._call("trigger")

    def reset(self):
        """A new board, but with its range and its inputs."""
        self._call("reset")

    def look(self, slot):
        """The code in a mailbox and its New and Missed bits. It changes nothing."""
        seen = self._call("look", _unsigned("slot", slot))
        return Look(seen % 0x10000, seen & 0x10000 != 0, seen & 0x20000 != 0)

    def clear(self, slot):
        """Drops the New and Missed bits of a slot, as a read of its mailbox does."""
        self._call("clear", _unsigned("slot", slot))

    def line(self):
        """Whether the board requests an interrupt: it is enabled and pending."""
        return _part().pmc330_line(self._contents) != 0

    def next_store(self):
        """The ticks to the next store if only time passes, 0 if none is to come."""
        return _part().pmc330_next_store(self._contents)

    def save(self):
        """The whole board, as bytes."""
        return _VERSION.to_bytes(4, sys.byteorder) + bytes(self._contents)

    def restore(self, saved):
        """Makes this board the saved one, whatever it was."""
        saved = bytes(memoryview(saved))
        version = int.from_bytes(saved[:4], sys.byteorder)
        if len(saved) >= 4 and version != _VERSION:
            raise ValueError(f"a board saved under version {version} of the part, not {_VERSION}: make its calls again instead")
        if len(saved) != 4 + ctypes.sizeof(_Contents):
            raise ValueError(f"no saved board: it has {len(saved)} bytes, not {4 + ctypes.sizeof(_Contents)}")
        self._contents = _Contents.from_buffer_copy(saved[4:])

    def __reduce__(self):
        """For `copy` and `pickle`: a board of its own."""
        return _restored, (self.save(),)

    def __eq__(self, other):
        return bytes(self._contents) == bytes(other._contents) if isinstance(other, Board) else NotImplemented

    def _call(self, name, *arguments):
        """A call's value. The result is 256 * value + number."""
        value, number = divmod(getattr(_part(), f"pmc330_{name}")(self._contents, *arguments), 256)
        if number != 0:
            raise Refused(number)
        return value


def _restored(saved):
    board = Board.__new__(Board)
    board.restore(saved)
    return board


_VERSION = 2  # PMC330_VERSION; in a saved board in the machine's order, as the numbers behind it are
_Contents = ctypes.c_uint32 * 71  # the 284 bytes of a pmc330_board; what they mean is the part's own business


def _unsigned(name, number):
    return _fitting(name, number, 0, 2**32 - 1, "a number of 32 bits")


def _signed(name, number):
    return _fitting(name, number, -(2**31), 2**31 - 1, "a number of 32 bits")


def _fitting(name, number, least, most, kind):
    """The number as it is. From one that does not fit ctypes would drop bits, and say nothing."""
    number = operator.index(number)
    if not least <= number <= most:
        raise ValueError(f"the {name} {number} is not {kind}")
    return number


# ---- The voltage of a code ----

_LOW_AND_WIDTH = {
    Range.PM5V: (-5_000_000, 10_000_000),
    Range.PM10V: (-10_000_000, 20_000_000),
    Range.FROM_0_TO_5V: (0, 5_000_000),
    Range.FROM_0_TO_10V: (0, 10_000_000),
}  # in microvolts


def volts(code, range, gain=Gain.TIMES_1, format=Format.STRAIGHT):
    """The voltage of a code, approximately: the lowest that gives it. The code does not say more than that the input was
    there or less than a count above; and at the ends, 0 and FFFFH of the straight code, it may lie any way outside."""
    code = _fitting("code", code, 0, 0xFFFF, "0 to 65,535")
    straight = code if Format(format) == Format.STRAIGHT else code ^ 0x8000
    low, width = _LOW_AND_WIDTH[Range(range)]
    return (low * 65536 + straight * width) / (65536 * 1_000_000 * 2 ** Gain(gain))


# ---- The part ----

_ROOT = pathlib.Path(__file__).resolve().parent.parent
_ARCHIVE = _ROOT / "target/staticlib/libpmc330_c.a"
_SHARED = _ROOT / "target/python/pmc330.so"
_SOURCES = [_ARCHIVE, pathlib.Path(__file__)]


@functools.cache
def _part():
    """The functions of the shared object, which is made first where it is older than what it is made from."""
    if not _ARCHIVE.is_file():
        raise NotBuilt(f"{_ARCHIVE} is missing: run `{_ROOT / 'tools/build'} pmc330_c`, which makes it")
    newest = max(path.stat().st_mtime_ns for path in _SOURCES)
    try:
        if not _SHARED.is_file() or _SHARED.stat().st_mtime_ns <= newest:
            _make_shared()
        part = ctypes.PyDLL(str(_SHARED))
    except OSError as error:
        raise NotBuilt(f"{_SHARED} can't be made or loaded ({error}): run `rm -rf {_SHARED.parent}` and try again") from None
    for name, arguments in _FUNCTIONS.items():
        function = getattr(part, f"pmc330_{name}")
        function.argtypes = [_Contents, *arguments]
        function.restype = ctypes.c_uint32 if name in ("line", "next_store") else ctypes.c_uint64
    return part


_U32, _I32 = ctypes.c_uint32, ctypes.c_int32
_FUNCTIONS = {
    "open": [_U32], "read": [_U32, _U32], "write": [_U32, _U32, _U32], "input": [_U32, _I32], "advance": [_U32],
    "trigger": [], "reset": [], "look": [_U32], "clear": [_U32], "line": [], "next_store": [],
}  # fmt: skip


def _make_shared():
    """Made under another name first, so that a program that starts meanwhile finds it whole or not at all."""
    _SHARED.parent.mkdir(parents=True, exist_ok=True)
    with tempfile.TemporaryDirectory(dir=_SHARED.parent) as folder:
        made = os.path.join(folder, "pmc330.so")
        needed = [f"-Wl,--require-defined=pmc330_{name}" for name in _FUNCTIONS]
        command = ["cc", "-shared", "-Wl,-z,defs", *needed, str(_ARCHIVE), "-o", made]
        try:
            subprocess.run(command, check=True, capture_output=True, text=True)
        except FileNotFoundError:
            raise NotBuilt("there is no C compiler `cc`: run `apt-get install gcc`, or what installs one here") from None
        except subprocess.CalledProcessError as error:
            # the first line that is not just a place, as "in function `pmc330_open':" is
            said = next((line for line in error.stderr.splitlines() if line[-1:] not in ("", ":")), "it says nothing")
            raise NotBuilt(f"cc failed ({said}): run `{_ROOT / 'tools/build'} pmc330_c` again") from None
        os.replace(made, _SHARED)
