#!/usr/bin/env python3
"""Draw what happens in a scan: a text of calls in, an SVG picture out.

    scan_picture.py < calls.txt > picture.svg

The text is that of tools/trace_text.py; comments before its first line are the picture's title.

Time goes across. A call takes none: the calls of one tick stand side by side, on a shaded ground. A box is a conversion, from
its beginning, where it takes its code, to its store. The bar below it lasts as long as the slot's New bit is set, and has
another colour where Missed is set too. Where nothing happens for long, time is cut, and the cut says how long it is. Of an
advance with more than 400 stores only the first and the last are drawn, and the cut between them says how many are not.
"""

import bisect
import math
import sys
import textwrap

from xml.sax.saxutils import escape, quoteattr

import scan_words
from pmc330 import NotBuilt
from scan_events import Begin, Call, Pass, Store, events_of
from scan_layout import BAR, BOX, EDGE, GAP, LEFT, LETTER, LINE, ROW, Scan, between, cut_words, text_width
from scan_words import code
from trace_text import Wrong, counted

RIGHT = 16  # pixels
SLANT = 0.7072  # how far up, and how far across, a pixel of a call's words goes
TALL = 12  # slots
BEYOND = 200  # so far words after a box or a bar may reach beyond their band

STYLE = """
text { font-family: monospace; font-size: 11px; fill: #1b1f24 }
.title { font-weight: bold }
.ground { fill: #ffffff }
.still { fill: #e9ebef }
.quiet { fill: #59636e }
.beside { fill: #59636e; stroke: #ffffff; stroke-width: 3px; paint-order: stroke }
.axis { stroke: #59636e; fill: none }
.row { stroke: #d5d9de; fill: none }
.guide { stroke: #9aa4af; fill: none; stroke-dasharray: 2 3 }
.mark { fill: #1b1f24 }
.ignored { fill: #59636e }
.refused { fill: #c01c28 }
.box { fill: #dde1e6 }
.dropped { stroke-dasharray: 3 2 }
.old { fill: #ffffff; stroke: #1b1f24 }
.new { fill: #b9d7ff; stroke: #ffffff }
.missed { fill: #ffc48a; stroke: #ffffff }
.up { fill: #d9c8f5; stroke: #ffffff }
@media (prefers-color-scheme: dark) {
text { fill: #e8ebef }
.ground { fill: #14171b }
.still { fill: #2a2f37 }
.quiet { fill: #a3adb8 }
.beside { fill: #a3adb8; stroke: #14171b }
.axis { stroke: #a3adb8 }
.row { stroke: #343a42 }
.guide { stroke: #6b7580 }
.mark { fill: #e8ebef }
.ignored { fill: #a3adb8 }
.refused { fill: #ff8f8f }
.box { fill: #3a4048 }
.old { fill: #14171b; stroke: #e8ebef }
.new { fill: #1d4f91; stroke: #14171b }
.missed { fill: #a35200; stroke: #14171b }
.up { fill: #57407f; stroke: #14171b }
}
"""


class Picture:
    """The SVG elements, and how far they reach."""

    def __init__(self):
        self.groups = []
        self.shapes = []
        self.texts = []  # these stand over the shapes
        self.width = 0

    def close_group(self, kind):
        self.groups += [f'<g class="{kind}">', *self.shapes, *self.texts, "</g>"]
        self.shapes, self.texts = [], []

    def add(self, name, kind, title="", **attributes):
        words = [f"{key.replace('_', '-')}={quoteattr(shown(value))}" for key, value in attributes.items()]
        end = f"><title>{escape(title)}</title></{name}>" if title else "/>"
        self.shapes.append(f'<{name} class="{kind}" {" ".join(words)}{end}')

    def path(self, kind, x, y, line, title="", **attributes):
        self.add("path", kind, title, d=f"M{shown(x)} {shown(y)}{line}", **attributes)

    def bar(self, kind, start, end, top, bottom, title="", **attributes):
        self.add("rect", kind, title, x=start, y=top, width=end - start, height=bottom - top, **attributes)

    def text(self, x, y, words, kind="", anchor="start"):
        self.put_text(f'x="{shown(x)}" y="{shown(y)}"', words, kind, anchor)
        self.width = max(self.width, x + len(words) * LETTER * (1 if anchor == "start" else 0.5))

    def slanted(self, x, y, words, kind, title):
        """Upwards, so that words whose beginnings are close do not meet."""
        self.put_text(f'transform="translate({shown(x)} {shown(y)}) rotate(-45)"', words, kind, title=title)
        self.width = max(self.width, x + len(words) * LETTER * SLANT)

    def put_text(self, place, words, kind="", anchor="start", title=""):
        kind = f' class="{kind}"' if kind else ""
        anchor = f' text-anchor="{anchor}"' if anchor != "start" else ""
        title = f"<title>{escape(title)}</title>" if title else ""
        self.texts.append(f"<text {place}{kind}{anchor}>{title}{escape(words)}</text>")

    def svg(self, name, height):
        width = shown(self.width + RIGHT)
        size = f'width="{width}" height="{shown(height)}" viewBox="0 0 {width} {shown(height)}"'
        head = f'<svg xmlns="http://www.w3.org/2000/svg" {size} role="img">\n<title>{escape(name)}</title>'
        ground = '<rect class="ground" width="100%" height="100%"/>'
        return "\n".join([head, f"<style>{STYLE}</style>", ground, *self.groups, "</svg>\n"])


def shown(value):
    """A number as a picture has it: with one digit after the point where it needs one, so that all machines write the same."""
    return f"{value:.1f}".removesuffix(".0") if isinstance(value, float) else str(value)


class Band:
    """A stretch of time with all its rows."""

    def __init__(self, picture, scan, start, end, top):
        self.picture, self.scan, self.layout = picture, scan, scan.layout
        self.start, self.end = start, end
        self.items = between(scan.items, start, end, self.layout.x.get)
        self.calls = [item for item in self.items if isinstance(item, Call)]
        self.cuts = between(self.layout.cuts, start, end, lambda cut: cut.middle)
        words = max((len(scan_words.said(call)) for call in self.calls), default=0)
        lines = 2 + max((len(cut_words(cut.time)) for cut in self.cuts), default=0)
        self.axis = top + words * LETTER * SLANT + 2 * LINE
        self.rows = self.axis + (lines + 1) * LINE
        self.level = self.rows + len(scan.slots) * ROW
        self.bottom = self.level + ROW
        self.end_y = self.bottom + 3 * LINE * self.is_tall()

    def is_tall(self):
        """Its lower rows are far from the ticks, which stand below them again."""
        return len(self.scan.slots) > TALL

    def at(self, x):
        return LEFT + x - self.start

    def row(self, slot):
        return self.rows + self.scan.slots.index(slot) * ROW

    def draw(self):
        self.draw_still()
        self.draw_names()
        self.draw_axis(self.axis)
        if self.is_tall():
            self.draw_axis(self.bottom)
        self.draw_cuts()
        self.draw_calls()
        self.draw_guides()
        for slot in self.scan.slots:
            self.draw_spans(self.scan.bars[slot], self.row(slot), BAR, slot)
            self.draw_spans(self.scan.boxes.get(slot, []), self.row(slot), BOX, slot)
        self.draw_spans(self.scan.levels, self.level, BAR, "line")
        self.draw_marks()

    def draw_still(self):
        """The ground of calls, in which no time passes."""
        for start, end in self.within(self.layout.still, lambda still: still[0], lambda still: still[1]):
            self.picture.bar("still", self.at(max(start, self.start)), self.at(min(end, self.end)), self.axis, self.bottom)

    def within(self, stretches, start, end):
        """Those of some stretches, one after the other, that lie in this band."""
        first = bisect.bisect_right(stretches, self.start, key=end)
        return stretches[first : bisect.bisect_left(stretches, self.end, key=start)]

    def draw_names(self):
        for slot in self.scan.slots:
            self.picture.text(8, self.row(slot) + BOX[1] - 3, f"slot {slot}")
            if slot in self.scan.channels:
                self.picture.text(8, self.row(slot) + BAR[1] - 3, self.scan.channels[slot], "quiet")
            self.draw_line("row", self.row(slot) + BAR[1])
        self.picture.text(8, self.level + BAR[1] - 3, "request line")
        self.draw_line("row", self.level + BAR[1])

    def draw_line(self, kind, y):
        for start, end in self.layout.pieces(self.start, self.end):
            self.picture.path(kind, self.at(start), y, f"H{shown(self.at(end))}")

    def draw_axis(self, y):
        """With the tick of the band's beginning, and of each moment for which there is room, the weightiest first."""
        self.draw_line("axis", y)
        self.picture.text(8, y + LINE, "ticks", "quiet")
        self.picture.text(8, y + 2 * LINE, "us", "quiet")
        moments = self.scan.moments
        first = bisect.bisect_right(moments, self.start, key=lambda moment: moment.x) - 1
        others = [moment for moment in between(moments, self.start, self.end, lambda m: m.x) if moment is not moments[first]]
        taken = []
        for moment in [moments[first], *sorted(others, key=lambda moment: -moment.weight)]:
            x, words = max(moment.x, self.start), [f"{moment.tick:,}", scan_words.us(moment.tick)]
            half = text_width(max(words, key=len)) / 2
            self.picture.path("axis", self.at(x), y, "v4")
            if all(abs(x - other) >= half + width for other, width in taken):
                taken.append((x, half))
                self.picture.text(self.at(x), y + LINE, words[0], anchor="middle")
                self.picture.text(self.at(x), y + 2 * LINE, words[1], anchor="middle")

    def draw_cuts(self):
        """Two strokes through the axis, how long the cut is, and a line down all rows."""
        for cut in self.cuts:
            x = self.at(cut.middle)
            self.picture.path("axis", x - GAP - 3, self.axis + 5, "l6 -10m4 10l6 -10")
            for line, words in enumerate(cut_words(cut.time), 3):
                self.picture.text(x, self.axis + line * LINE, words, "quiet", "middle")
            self.picture.path("axis", x, self.rows, "l3 4l-6 8l3 4" * int((self.bottom - self.rows) // 16))

    def draw_calls(self):
        for call in self.calls:
            x, title = self.at(self.layout.x[call]), scan_words.explained(call)
            kind = "refused" if call.number else "ignored" if call.effect == "ignored" else "mark"
            shape = "l4 4l-4 4l-4 -4z" if call.number else "h4l-4 8l-4 -8z"
            self.picture.path(kind, x, self.axis - 9, shape, title, data_call=call.index, data_number=call.number)
            self.picture.slanted(x + 4, self.axis - 12, scan_words.said(call), kind, title)

    def draw_guides(self):
        """From calls down to what they act on, below the ticks."""
        for call in self.calls:
            row = self.scan.guides.get(call)
            if row is not None:
                bottom = self.bottom if row == "line" else self.row(row) + BAR[1]
                self.picture.path("guide", self.at(self.layout.x[call]), self.rows - EDGE, f"V{shown(bottom)}")

    def draw_spans(self, spans, top, lane, row):
        """The bars or boxes of a row, and what is written in them and after them."""
        inside = self.within(spans, lambda span: span.start, lambda span: span.end)
        for span, following in zip(inside, [*inside[1:], None]):
            pieces = self.layout.pieces(max(span.start, self.start), min(span.end, self.end))
            self.draw_pieces(span, pieces, top + lane[0], top + lane[1], row)
            written = self.write(span.texts, pieces, top + lane[1] - 3)
            if span.end <= self.end:
                self.write(span.after.get(written, []), self.room_after(span, following), top + lane[1] - 3, "beside")

    def draw_pieces(self, span, pieces, top, bottom, row):
        for left, right in pieces:
            self.picture.bar(span.kind, self.at(left), self.at(right), top, bottom, data_row=row)
            if span.kind.startswith("box"):
                side = f"V{shown(bottom)}" if right == span.end and span.kind != "box open" else ""
                line = f"H{shown(self.at(right))}{side}M{shown(self.at(left))} {shown(bottom)}H{shown(self.at(right))}"
                self.picture.path("axis" + span.kind.removeprefix("box"), self.at(left), top, line)

    def room_after(self, span, following):
        """To the mark of the next span or to a cut; or beyond the band, where nothing follows."""
        if following is None and span.end + EDGE / 2 >= self.end:
            return [(span.end + EDGE / 2, math.inf)]
        return self.layout.pieces(span.end + EDGE / 2, following.start - GAP if following else self.end + BEYOND)[:1]

    def write(self, texts, rooms, y, kind=""):
        """In the first room in which one fits the first text that does; and the full one again in a later room."""
        written = None
        for left, right in rooms:
            fitting = [text for text in texts if right - left >= text_width(text)]
            if fitting and (written is None or written != texts[0] and fitting[0] == texts[0]):
                written = fitting[0]
                self.picture.text(self.at(left) + EDGE / 2, y, written, kind)
        return written

    def draw_marks(self):
        """A beginning at the end of a band stands in the next one, with its box; a store at the end of its box."""
        for item in self.items:
            x = self.layout.x[item]
            if isinstance(item, Store) and self.start < x:
                self.draw_store(item, self.at(x))
            elif isinstance(item, Begin) and (x < self.end or x == self.layout.end):
                self.draw_begin(item, self.at(x))

    def draw_store(self, store, x):
        data = {"data_call": store.call, "data_tick": store.tick, "data_slot": store.slot, "data_code": code(store.code)}
        kind = "mark" if store.begin else "old"
        self.picture.path(kind, x - 5, self.row(store.slot) + BOX[1] - 4, "h10l-5 8z", scan_words.stored(store), **data)

    def draw_begin(self, begin, x):
        top, bottom = self.row(begin.slot) + BOX[0] - 2, self.row(begin.slot) + BOX[1]
        data = {"data_tick": begin.tick, "data_slot": begin.slot, "data_code": code(begin.code)}
        self.picture.bar("mark", x - 1.5, x + 1.5, top, bottom, scan_words.begun(begin), **data)


def comment_of(text):
    """The comments before the first line of a text, without what SVG cannot hold."""
    words = []
    for line in text.splitlines():
        if line.split("#")[0].strip():
            break
        words.append("".join(filter(str.isprintable, line.partition("#")[2])).strip())
    return " ".join(filter(None, words)) or "A scan of the PMC330"


def summary(range, items):
    calls = [item for item in items if isinstance(item, Call)]
    refused = sum(call.number != 0 for call in calls)
    stores = sum(isinstance(item, Store) for item in items) + sum(item.stores for item in items if isinstance(item, Pass))
    parts = [counted(len(calls), "call"), f"{refused:,} refused", counted(stores, "store")]
    return f"Range {scan_words.RANGES[range]}; {', '.join(parts)}. A tick is 0.125 us; calls take no time (grey ground)."


def drawn(text):
    """The picture of a text of calls."""
    range, items = events_of(text)
    scan, picture, y = Scan(items), Picture(), 2 * LINE
    for line in textwrap.wrap(comment_of(text), int((LEFT + scan.layout.band) / LETTER)):
        picture.text(8, y, line, "title")
        y += LINE
    picture.text(8, y, summary(range, items), "quiet")
    picture.close_group("head")
    for start, end in scan.layout.bands():
        band = Band(picture, scan, start, end, y + LINE)
        band.draw()
        picture.close_group("band")
        y = band.end_y
    return picture.svg(comment_of(text), y + LINE)


def main():
    if len(sys.argv) > 1:
        sys.exit(__doc__)
    try:
        sys.stdout.buffer.write(drawn(sys.stdin.buffer.read().decode("utf-8")).encode("utf-8"))
    except UnicodeDecodeError as error:
        sys.exit(f"scan_picture: byte {error.start}: the text is not UTF-8")
    except (Wrong, NotBuilt) as wrong:
        sys.exit(f"scan_picture: {wrong}")


if __name__ == "__main__":
    main()
