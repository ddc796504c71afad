"""What happens in a scan, call by call: the events that tools/scan_picture.py draws.

A board is stepped through a text of calls (see tools/trace_text.py) from one event to the next. All is found from
outside, by the calls of tools/pmc330.py: what a conversion or a trigger will store is tried on a copy of the board.
"""

import copy
import dataclasses

import trace_text
from pmc330 import Acquisition, Board, Look, Refused, Register

CONVERSION = 64  # ticks from a conversion's beginning to its store, where time makes it
TRIGGERS = 64  # at least so many from one trigger that is taken to the next
DRAWN = 400  # an advance with more stores is not drawn whole


@dataclasses.dataclass(eq=False)
class State:
    """What can be seen of a board: for each slot what a look shows, and the request line."""

    slots: list
    line: bool


@dataclasses.dataclass(eq=False)
class Item:
    """Something that happens from this tick on, and the state after it."""

    tick: int
    after: State


@dataclasses.dataclass(eq=False)
class Call(Item):
    index: int  # from 1
    name: str
    arguments: list
    number: int
    value: int  # of an accepted call, as pmc330_run prints it
    effect: str  # on the cycle: "starts", "arms" or "stops" it, or of a trigger "taken" or "ignored"; else ""


@dataclasses.dataclass(eq=False)
class Pass(Item):
    """Time passes. Stores in it are not drawn; there are some only in the middle of a long advance."""

    ticks: int
    stores: int = 0


@dataclasses.dataclass(eq=False)
class Begin(Item):
    """A conversion takes its code."""

    slot: int
    code: int  # as it will be stored
    channel: int


@dataclasses.dataclass(eq=False)
class Drop(Item):
    """The conversion in progress will not be stored."""

    begin: Begin


@dataclasses.dataclass(eq=False)
class Store(Item):
    call: int  # the index of the call in which it is made
    slot: int
    code: int
    begin: Begin  # None where the code is an old one, not of this cycle
    lost: int  # the code that was there and that nobody had read, or None


def calls_of(text):
    """The range and the calls of a text, by name and numbers. The rules are those of a trace."""
    (_, heading), *fields = trace_text.fields_of(trace_text.encoded(text))
    shapes = {tag: (name, fields) for name, (tag, fields) in trace_text.FIELDS.items()}
    calls, follows_call = [], False
    for tag, body in fields:
        if tag != trace_text.ANSWERED:
            name, parts = shapes[tag]
            calls.append((name, trace_text.numbers_of(parts, body)))
        elif not follows_call:
            raise trace_text.Wrong(f"an 'answered' after {trace_text.counted(len(calls), 'call')} does not follow a call")
        follows_call = tag != trace_text.ANSWERED
    return heading[4], calls


def events_of(text):
    """The range of a text and the items of its run."""
    range, calls = calls_of(text)
    try:
        run = Run(range)
    except Refused as refused:
        raise trace_text.Wrong(f"'range {range}' is {refused}")
    for name, arguments in calls:
        run.call(name, arguments)
    return range, run.items


def seen(board):
    return State([board.look(slot) for slot in range(32)], board.line())


def tried(board, step):
    """The slot and the code of the store that a step makes, or None: on a copy of which nothing is New."""
    trial = copy.copy(board)
    for slot in range(32):
        trial.clear(slot)
    step(trial)
    looks = [trial.look(slot) for slot in range(32)]
    return next(((slot, look.code) for slot, look in enumerate(looks) if look.new), None)


def is_running(board):
    """A write to the timer is refused while a cycle runs or is armed, and only then."""
    try:
        copy.copy(board).write(16, Register.TIMER, 0)
    except Refused:
        return True
    return False


def effect_of(before, board, name):
    """What a call that took no time did to the cycle."""
    was_running, runs = is_running(before), is_running(board)
    if was_running and not runs:
        return "stops"
    if runs and not was_running:
        return "starts" if board.next_store() > 0 else "arms"
    if name != "trigger":
        return ""
    return "ignored" if board == before else "taken"


def in_progress(board):
    """The slot and the code of the conversion that has begun and is not stored yet, or None."""
    wait = board.next_store()
    if wait > 0:
        return tried(board, lambda trial: trial.advance(wait)) if wait <= CONVERSION else None
    if is_running(board):
        return tried(board, taken_later)
    return None


def taken_later(trial):
    """A trigger that does not come too early."""
    trial.advance(TRIGGERS)
    trial.trigger()


def channel_of(board, slot):
    is_differential = board.read(16, Register.CONTROL) & 0x38 == Acquisition.DIFFERENTIAL
    return slot % 16 if is_differential else slot


def ticks_to(board, stores, most):
    """The fewest ticks in which so many stores are made; `most` are enough."""
    least = 0
    while least < most:
        middle = (least + most) // 2
        if copy.copy(board).advance(middle) < stores:
            least = middle + 1
        else:
            most = middle
    return least


def answer_of(board, name, arguments):
    """The number and the value of a call that is made, as pmc330_run prints them."""
    try:
        value = getattr(board, name)(*arguments)
    except Refused as refused:
        return refused.number, 0
    if isinstance(value, Look):
        return 0, value.code + 0x10000 * value.new + 0x20000 * value.missed
    return 0, value or 0


class Run:
    """A board on its way through the calls, and what has happened."""

    def __init__(self, range):
        self.board = Board(range)
        self.tick = 0
        self.calls = 0
        self.begun = None  # the Begin of the conversion in progress
        self.items = []

    def add(self, kind, *details, **more):
        self.items.append(kind(self.tick, seen(self.board), *details, **more))

    def call(self, name, arguments):
        self.calls += 1
        if name == "advance":
            self.advance(arguments)
            return
        before = copy.copy(self.board)
        number, value = answer_of(self.board, name, arguments)
        effect = effect_of(before, self.board, name)
        self.add(Call, self.calls, name, arguments, number, value, effect)
        stored = tried(before, Board.trigger) if name == "trigger" else None
        if stored:
            self.store(stored[0])
        if effect:
            self.settle()

    def settle(self):
        """A conversion begins in a call, or is dropped by it."""
        now = in_progress(self.board)
        if self.begun and not now:
            self.add(Drop, self.begun)
            self.begun = None
        elif now and not self.begun:
            self.begin(now)

    def begin(self, now):
        slot, code = now
        self.add(Begin, slot, code, channel_of(self.board, slot))
        self.begun = self.items[-1]

    def store(self, slot):
        """The item before is the call or the ticks that brought it."""
        there = self.items[-2].after.slots[slot]
        code = self.board.look(slot).code
        self.add(Store, self.calls, slot, code, self.begun, there.code if there.new else None)
        self.begun = None

    def advance(self, arguments):
        """The call comes first, and then what happens in its ticks."""
        number, stores = answer_of(copy.copy(self.board), "advance", arguments)
        self.add(Call, self.calls, "advance", arguments, number, stores, "")
        if number != 0:
            return
        ticks = arguments[0]
        if stores <= DRAWN:
            self.pass_events(ticks)
            return
        ends = self.drawn_at_ends()
        head = ticks_to(self.board, ends, ticks)
        self.pass_events(head)
        tail = ticks - head
        hidden = ticks_to(self.board, stores - 2 * ends, tail)
        self.pass_time(hidden, stores - 2 * ends)
        self.begun = None  # it was stored there; the next one is still to begin
        self.pass_events(tail - hidden)

    def drawn_at_ends(self):
        """How many stores are drawn of a long advance at its beginning and at its end: two passes, or eight stores."""
        channels = self.board.read(16, Register.CHANNELS)
        return max(8, 2 * (channels // 256 - channels % 256 + 1))

    def pass_events(self, ticks):
        end = self.tick + ticks
        while (wait := self.ticks_to_event()) is not None and self.tick + wait <= end:
            self.pass_time(wait)
            if self.begun:
                self.store(self.begun.slot)
            else:
                self.begin(in_progress(self.board))
        self.pass_time(end - self.tick)

    def ticks_to_event(self):
        """To the store of the conversion in progress, or to the next beginning; None if time alone brings nothing."""
        wait = self.board.next_store()
        if wait == 0:
            return None
        return wait if self.begun else wait - CONVERSION

    def pass_time(self, ticks, stores=0):
        if ticks == 0:
            return
        self.board.advance(ticks)
        self.add(Pass, ticks, stores)
        self.tick += ticks
