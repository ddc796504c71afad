"""Where things lie in tools/scan_picture.py's pictures: x in pixels from the beginning of time, over all bands."""

import bisect
import dataclasses
import math

import scan_words
from scan_events import CONVERSION, Begin, Call, Drop, Pass, Store
from scan_words import code
from trace_text import counted

LEFT = 96  # the names of the rows stand before time
BAND = 800  # so much time in a row; what is longer goes on in a band below, which is twice as wide in a long picture
FEW, MANY = 8, 80  # conversions in a picture
COLUMN = 20  # of a call
PAD = 18  # between time and the calls after it
CUT_ABOVE = 170  # a longer stretch in which nothing happens is cut
LEAST = 6  # of any time that passes
ROW = 34
BOX = (4, 18)  # of a conversion, within a row
BAR = (18, 32)  # of New and Missed
LETTER = 6.7  # the width of one of 11 pixels, at most
LINE = 14  # from one line of text to the next
EDGE = 8  # around a text that stands in something
GAP = 5  # half the width of what a cut takes out


class Layout:
    """Where each item stands."""

    def __init__(self, items):
        begins = [item for item in items if isinstance(item, Begin)]
        self.scale = scale_of(begins)
        self.band = BAND if len(begins) <= MANY else 2 * BAND
        self.units = []  # what no band divides: a call's column or a stretch of time
        self.still = []  # where calls stand and no time passes
        self.cuts = []
        self.x = {}
        self.end = 0
        self.was_time = False
        here = 0
        for item in items:
            if isinstance(item, Call):
                self.put_call(item)
            elif isinstance(item, Pass):
                self.put_pass(item)
            else:
                self.x[item] = here
            here = self.x[item]

    def put_call(self, call):
        """The first one after time stands apart from it."""
        start = self.end
        self.end += PAD * self.was_time + COLUMN
        self.x[call] = self.end - COLUMN / 2
        self.units.append((start, self.end))
        if self.was_time or start == 0:
            self.still.append((start, self.end))
        else:
            self.still[-1] = (self.still[-1][0], self.end)
        self.was_time = False

    def put_pass(self, time):
        start = self.end
        self.end += self.width(time)
        self.x[time] = self.end
        self.units.append((start, self.end))
        if self.is_cut(time):
            self.cuts.append(Cut((start + self.end) / 2, time))
        self.was_time = True

    def is_cut(self, time):
        return time.stores > 0 or time.ticks * self.scale > CUT_ABOVE

    def width(self, time):
        if self.is_cut(time):
            return max(map(len, cut_words(time))) * LETTER + PAD
        return max(time.ticks * self.scale, LEAST)

    def change_of(self, item):
        """Where the state after an item begins."""
        is_hidden = isinstance(item, Pass) and item.stores > 0
        return self.x[item] - self.width(item) / 2 if is_hidden else self.x[item]

    def bands(self):
        """The beginning and the end of each band: about alike, and a fourth longer rather than one more."""
        count = max(1, math.ceil(self.end / self.band - 0.25))
        starts = [0]
        for start, end in self.units:
            if (start + end) / 2 > self.end * len(starts) / count:
                starts.append(start)
        return list(zip(starts, [*starts[1:], self.end]))

    def pieces(self, start, end):
        """What the cuts leave of a stretch."""
        pieces = []
        for cut in between(self.cuts, start - GAP, end + GAP, lambda cut: cut.middle):
            pieces.append((start, cut.middle - GAP))
            start = cut.middle + GAP
        return [(a, b) for a, b in [*pieces, (start, end)] if a < b]


def between(things, start, end, place):
    """Those of a list in order whose place is in a stretch, its ends included."""
    return things[bisect.bisect_left(things, start, key=place) : bisect.bisect_right(things, end, key=place)]


@dataclasses.dataclass
class Cut:
    middle: float
    time: Pass


def scale_of(begins):
    """Pixels a tick: the fewer conversions the more, and enough for the words between the stores of a slot."""
    scale = 1.3 if len(begins) <= FEW else 0.7 if len(begins) <= MANY else 0.4
    last = {}
    for begin in begins:
        gap = begin.tick - last.get(begin.slot, begin.tick)
        if gap >= CONVERSION:
            scale = max(scale, text_width("Missed") / gap)
        last[begin.slot] = begin.tick
    return scale


def text_width(text):
    return len(text) * LETTER + EDGE


def cut_words(time):
    words = [counted(time.ticks, "tick"), f"{scan_words.us(time.ticks)} us"]
    return words + [counted(time.stores, "store"), "not drawn"] if time.stores else words


# ---- What lies in the rows ----


@dataclasses.dataclass
class Span:
    """From here to there, with what is written about it."""

    start: float
    end: float
    kind: str
    texts: list  # in it: the first that fits, or None
    after: dict  # after it: for the text that is in it, the first of these that fits


def boxes_of(items, layout):
    """The conversions, by slot. The store of one that begins before a cut with stores is not drawn."""
    boxes, box = {}, None
    for item in items:
        if isinstance(item, Begin):
            taken = code(item.code)
            box = Span(layout.x[item], layout.end, "box open", [f"takes {taken}", taken], {None: [taken]})
            boxes.setdefault(item.slot, []).append(box)
        elif box and (isinstance(item, (Store, Drop)) or isinstance(item, Pass) and item.stores):
            close_box(box, item, layout.change_of(item))
            box = None
    return boxes


def close_box(box, item, x):
    full, short = box.texts
    box.end = x
    if isinstance(item, Store):
        box.kind = "box"
        box.after = {full: ["stored"], short: ["stored"], None: [f"{short} stored", short]}
    elif isinstance(item, Drop):
        box.kind = "box dropped"
        box.after = {full: ["dropped"], short: ["dropped"], None: [f"{short} dropped", short]}


def bars_of(items, layout, slot):
    """The stretches in which the slot's New bit is set, one for each code that it is New with."""
    bars, shown = [], None
    for item in items:
        look = item.after.slots[slot]
        store = item if isinstance(item, Store) and item.slot == slot else None
        if store is None and look == shown:
            continue
        if shown and shown.new:
            bars[-1].end = layout.change_of(item)
        if look.new:
            bars.append(Span(layout.change_of(item), layout.end, *bar_words(look, store)))
        shown = look
    return [bar for bar in bars if bar.start < bar.end]


def bar_words(look, store):
    """The kind of a bar, and what is written in it and after it. Without a store that is drawn it begins in a cut."""
    waits = f"{code(look.code)} waits to be read"
    if look.missed:
        why = f"{code(store.lost)} was not read" if store else "codes were not read"
        texts = [f"New and Missed: {why}", f"Missed: {why}", "Missed"]
        return "missed", texts, {"Missed": [why], None: texts[1:]}
    if store is None or store.begin:
        return "new", [f"New: {waits}", "New"], {None: ["New"]}
    old = f"old code {code(look.code)}"
    return "new", [f"New: old code {waits}", f"New: {old}", "New"], {"New": [old], None: [f"New: {old}", "New"]}


def levels_of(items, layout):
    """The stretches in which the request line is up."""
    levels, is_up = [], False
    for item, following in zip(items, [*items[1:], None]):
        if item.after.line == is_up:
            continue
        is_up = item.after.line
        if is_up:
            by = f" by the store in slot {following.slot}" if isinstance(following, Store) else ""
            texts = [f"up: interrupt requested{by}", "up: interrupt requested", "up: requested", "up"]
            levels.append(Span(layout.change_of(item), layout.end, "up", texts, {}))
        else:
            levels[-1].end = layout.change_of(item)
    return levels


@dataclasses.dataclass
class Moment:
    """A place at which a tick can be told."""

    x: float
    tick: int
    weight: int  # it matters more with calls than with a store, and more with a store than with a beginning


def moments_of(items, layout):
    moments = [Moment(0, 0, 3)]
    for item in items:
        if isinstance(item, Pass):
            moments.append(Moment(layout.x[item], item.tick + item.ticks, 0))
        else:
            weight = 3 if isinstance(item, Call) else 2 if isinstance(item, Store) else 1
            moments[-1].weight = max(moments[-1].weight, weight)
    return moments


def guides_of(items):
    """The calls that act on what is seen, each with the row to which a line leads: a slot, or "line" for all."""
    guides, was_up = {}, False
    for item in items:
        if isinstance(item, Call):
            guides[item] = scan_words.mailbox_of(item)
            if item.after.line != was_up or item.effect not in ("", "ignored") or item.name == "reset":
                guides[item] = "line"
        was_up = item.after.line
    return {call: row for call, row in guides.items() if row is not None}


def channels_of(items):
    """The channel of each slot, or two, where the board was differential and then not, or the other way round."""
    channels = {}
    for item in items:
        if isinstance(item, Begin):
            channels.setdefault(item.slot, set()).add(item.channel)
    return {slot: "channel " + "/".join(map(str, sorted(found))) for slot, found in channels.items()}


class Scan:
    """All that a picture shows of some items."""

    def __init__(self, items):
        self.items = items
        self.layout = Layout(items)
        self.boxes = boxes_of(items, self.layout)
        self.levels = levels_of(items, self.layout)
        self.moments = moments_of(items, self.layout)
        self.guides = guides_of(items)
        self.channels = channels_of(items)
        self.bars = {slot: bars_of(items, self.layout, slot) for slot in range(32)}
        asked = {scan_words.mailbox_of(item) for item in items if isinstance(item, Call)}
        self.slots = [slot for slot in range(32) if self.bars[slot] or slot in self.boxes or slot in asked]
