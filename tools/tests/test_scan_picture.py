"""The pictures of scans: what they show is what the logbook of the independent program says, and all of it can be read."""

import collections
import functools
import pathlib
import re
import subprocess
import sys
import unittest
from xml.etree import ElementTree

ROOT = pathlib.Path(__file__).resolve().parent.parent.parent
sys.path[:0] = [str(ROOT / "tools"), str(ROOT / "tools/tests")]

import made_up
import pmc330
import scan_events
import scan_layout
import scan_picture
import scan_words
import trace_text

SVG = "{http://www.w3.org/2000/svg}"
MODES = ["uniform_continuous", "uniform_single", "burst_continuous", "burst_single", "external_trigger"]
EXAMPLES = sorted((ROOT / "examples").glob("*.calls"))
LETTER, UP, DOWN = 0.602 * 11, 8.0, 2.4  # of a letter in 11 pixels: its width, and how far it goes up and down


@functools.cache
def picture_of(text):
    return scan_picture.drawn(text)


def made_up_texts():
    return [made_up.text(seed, 40 + seed % 60, 300 if seed % 3 else 9000) for seed in range(60)]


def long_scan():
    """32 slots and a few hundred events, of a driver that reads a third of the mailboxes in each pass."""
    lines = ["range 1", "write 16 10H 1F00H", "write 8 09H 64", "write 16 0CH 1", "write 16 04H 2909H", "write 16 00H 1"]
    lines += ["write 16 24H 1"]
    for turn in range(8):
        lines.append("advance 2048")
        lines += [f"read 16 {0x80 + 4 * slot:X}H" for slot in range(32) if (slot + turn) % 3 == 0]
        lines += ["write 16 00H 8001H", "write 16 0CH 3"]
    return "\n".join(lines)


def single_channel():
    """Stores in one slot as close as they can be."""
    lines = ["range 1", "write 16 10H 0505H", "write 8 09H 64", "write 16 0CH 1", "write 16 04H 0909H", "write 16 24H 1"]
    return "\n".join([*lines, "advance 20000", "read 16 94H", "advance 300"])


def many_stores():
    """Advances whose stores are not all drawn, one after the other, and what comes after them."""
    scan = ["write 8 09H 64", "write 16 0CH 1", "write 16 04H 2909H", "write 16 00H 1", "write 16 24H 1"]
    more = ["advance 100000", "read 16 80H", "advance 40033", "write 16 00H 8001H", "advance 30000", "reset"]
    return "\n".join(["range 2", "write 16 10H 0200H", *scan, *more, "write 16 10H 0101H", *scan, "advance 70000"])


def all_texts():
    return [path.read_text("utf-8") for path in EXAMPLES] + made_up_texts() + [long_scan(), single_channel(), many_stores()]


@functools.cache
def logbook_of(text):
    """The logbook's stores, beginnings and states after each call."""
    program = ROOT / "target/checker/debug/print_scan"
    said = subprocess.run([program], input=trace_text.encoded(text), capture_output=True, check=True).stdout.decode()
    lines = [line.split() for line in said.splitlines()]
    stores = [(int(call), int(tick), int(slot), code) for kind, call, tick, slot, code in only(lines, "store")]
    begins = [(int(tick), int(slot), code) for kind, call, tick, slot, code in only(lines, "begin")]
    after = [(int(new, 16), int(missed, 16), line == "1") for kind, call, new, missed, line in only(lines, "after")]
    return stores, begins, after


def only(lines, kind):
    return [line for line in lines if line[0] == kind]


def by_call(stores):
    found = {}
    for store in stores:
        found.setdefault(store[0], []).append(store)
    return found


class Drawn:
    """A picture, read from its SVG."""

    def __init__(self, text):
        self.root = ElementTree.fromstring(picture_of(text))
        self.bands = [Band(group) for group in self.root.iter(f"{SVG}g") if group.get("class") == "band"]
        self.stores = [store_of(shape) for band in self.bands for shape in band.stores]
        self.begins = [begin_of(shape) for band in self.bands for shape in band.begins]
        self.texts = list(self.root.iter(f"{SVG}text"))
        self.words = [words_of(element) for element in self.texts]

    def states(self):
        """What the bars say of New, Missed and the request line, just before each call's mark and just after it."""
        found = {}
        for band in self.bands:
            for call in band.calls:
                x = place_of(call)[0]
                found[int(call.get("data-call"))] = state_at(band.bars, x - 0.3), state_at(band.bars, x + 0.3)
        return [found[index] for index in sorted(found)]


class Band:
    def __init__(self, group):
        self.stores = [shape for shape in group if shape.get("data-slot") and shape.get("data-call")]
        self.begins = [shape for shape in group if shape.get("data-slot") and not shape.get("data-call")]
        self.calls = [shape for shape in group if shape.get("data-number")]
        self.axes = [shape for shape in group if shape.get("class") == "axis"]
        self.texts = list(group.iter(f"{SVG}text"))
        rows = [shape for shape in group if shape.get("data-row")]
        self.boxes = [shape for shape in rows if shape.get("class").startswith("box")]
        self.bars = [shape for shape in rows if not shape.get("class").startswith("box")]


    def labels(self):
        """The ticks and the microseconds below the axis, each with its x."""
        places = {(float(text.get("x")), float(text.get("y"))): words_of(text) for text in self.texts if text.get("text-anchor")}
        for (x, y), words in places.items():
            below = next((other for (x2, y2), other in places.items() if near(x, x2) and near(y + 14, y2)), "")
            if re.fullmatch("[0-9,]+", words) and re.fullmatch("[0-9,.]+", below):
                yield x, int(words.replace(",", "")), float(below.replace(",", ""))


def store_of(shape):
    return (*(int(shape.get(f"data-{name}")) for name in ["call", "tick", "slot"]), shape.get("data-code")[:-1])


def begin_of(shape):
    return (*(int(shape.get(f"data-{name}")) for name in ["tick", "slot"]), shape.get("data-code")[:-1])


def place_of(shape):
    """Where a path begins."""
    x, y = re.match("M([0-9.]+) ([0-9.]+)", shape.get("d")).groups()
    return float(x), float(y)


def edges_of(bar):
    left, top = float(bar.get("x")), float(bar.get("y"))
    return left, left + float(bar.get("width")), top, top + float(bar.get("height"))


def words_of(element):
    return element[-1].tail if len(element) else element.text


def state_at(bars, x):
    new, missed, line = 0, 0, False
    for bar in bars:
        left, right, _, _ = edges_of(bar)
        if not left <= x <= right:
            continue
        if bar.get("data-row") == "line":
            line = True
            continue
        new |= 1 << int(bar.get("data-row"))
        missed |= (bar.get("class") == "missed") << int(bar.get("data-row"))
    return new, missed, line


class Pictures(unittest.TestCase):
    def test_stored_are_made_anew(self):
        stored = sorted((ROOT / "examples").glob("*.svg"))
        self.assertGreaterEqual({path.stem for path in stored}, set(MODES))
        for path in stored:
            text = path.with_suffix(".calls").read_text("utf-8")
            self.assertEqual(scan_picture.drawn(text), path.read_text("utf-8"), path.name)

    def test_stored_of_the_modes_draw_every_store_that_the_advances_count(self):
        for mode in MODES:
            text = (ROOT / f"examples/{mode}.calls").read_text("utf-8")
            calls = scan_events.calls_of(text)[1]
            lines = (ROOT / f"examples/{mode}.lines").read_text("ascii").splitlines()
            drawn = Drawn(text)
            for index, ((name, _), line) in enumerate(zip(calls, lines, strict=True), 1):
                if name == "advance":
                    self.assertEqual(sum(store[0] == index for store in drawn.stores), int(line.split()[2], 16))
            self.assertTrue(drawn.stores, mode)

    def test_stored_of_the_modes_say_why_missed_came_up(self):
        for mode, lost in [("uniform_continuous", "6000H"), ("burst_continuous", "9999H")]:
            words = Drawn((ROOT / f"examples/{mode}.calls").read_text("utf-8")).words
            self.assertTrue(any(f"{lost} was not read" in word for word in words), mode)

    def test_show_the_stores_of_the_logbook(self):
        """All, or of an advance with more than 400 the first and the last."""
        left_out = 0
        for text in all_texts():
            drawn = by_call(Drawn(text).stores)
            for call, due in by_call(logbook_of(text)[0]).items():
                made = drawn.pop(call)
                if len(due) > 400:
                    ends = len(made) // 2
                    self.assertEqual(made, due[:ends] + due[-ends:])
                    self.assertIn(f"{len(due) - len(made):,} stores", picture_of(text))
                    left_out += len(due) - len(made)
                else:
                    self.assertEqual(made, due)
            self.assertEqual(drawn, {})
        self.assertGreater(left_out, 264_000)

    def test_show_the_beginnings_of_the_logbook(self):
        total = 0
        for text in all_texts():
            begins, drawn = logbook_of(text)[1], Drawn(text).begins
            if "not drawn" in picture_of(text):
                self.assertLess(set(drawn), set(begins))
            else:
                self.assertEqual(drawn, begins)
            total += len(drawn)
        self.assertGreater(total, 1000)

    def test_show_new_missed_and_the_line_of_the_logbook(self):
        """After each call, that is before the next one; an advance has then come to its end."""
        states = []
        for text in all_texts():
            calls, after = scan_events.calls_of(text)[1], logbook_of(text)[2]
            drawn = Drawn(text).states()
            self.assertEqual([before for before, _ in drawn[1:]], after[:-1])
            for (name, _), (before, there), state in zip(calls, drawn, after, strict=True):
                self.assertEqual(there, before if name == "advance" else state)
            states += after
        self.assertGreater(sum(missed != 0 for _, missed, _ in states), 250)
        self.assertGreater(sum(line for _, _, line in states), 500)

    def test_have_each_mark_at_the_edge_of_its_box(self):
        """A beginning at its left edge, a store at its right one, but for a store of an old code, which has no box."""
        at_edges, old = 0, 0
        for text in all_texts():
            for band in Drawn(text).bands:
                boxes = [(box.get("data-row"), *edges_of(box)) for box in band.boxes]
                for begin in band.begins:
                    left, right, _, bottom = edges_of(begin)
                    marked = [box for box in boxes if box[0] == begin.get("data-slot") and near(box[1], (left + right) / 2)]
                    self.assertTrue(marked and near(marked[0][4], bottom) or near((left + right) / 2, self.end_of(band)))
                for store in band.stores:
                    x, y = place_of(store)
                    marked = [box for box in boxes if box[0] == store.get("data-slot") and near(box[2], x + 5)]
                    self.assertEqual(bool(marked), store.get("class") == "mark")
                    self.assertTrue(not marked or near(marked[0][4], y + 4))
                    at_edges += len(marked)
                    old += not marked
        self.assertGreater(at_edges, 1000)
        self.assertGreater(old, 10)

    def end_of(self, band):
        return max(float(line) for shape in band.axes for line in re.findall("H([0-9.]+)", shape.get("d")))

    def test_write_the_code_of_each_conversion(self):
        for text in all_texts():
            drawn = Drawn(text)
            written = [re.fullmatch("(?:takes )?([0-9A-F]{4})H(?: stored| dropped)?", words) for words in drawn.words]
            codes = collections.Counter(match[1] for match in written if match)
            begun = collections.Counter(code for _, _, code in drawn.begins)
            self.assertEqual({code: count for code, count in begun.items() if codes[code] < count}, {})

    def test_tell_the_tick_of_a_place(self):
        """Below the axis, with its microseconds: at a mark that of the mark; at an edge of a band that of a mark in the
        band beside it; and elsewhere that of calls."""
        at_marks, of_calls = 0, 0
        for text in all_texts():
            ticks_of_calls, drawn = set(call_ticks(text)), Drawn(text)
            for band in drawn.bands:
                marks = [(self.end_of(band), tick) for tick, _, _ in drawn.begins]
                marks += [(scan_layout.LEFT, tick) for _, tick, _, _ in drawn.stores]
                marks += [(place_of(store)[0] + 5, int(store.get("data-tick"))) for store in band.stores]
                marks += [(edges_of(begin)[0] + 1.5, int(begin.get("data-tick"))) for begin in band.begins]
                for x, tick, us in band.labels():
                    self.assertEqual(us, tick / 8)
                    if tick in {other for at, other in marks if near(at, x)}:
                        at_marks += 1
                    else:
                        self.assertIn(tick, ticks_of_calls)
                        of_calls += 1
        self.assertGreater(at_marks, 1000)
        self.assertGreater(of_calls, 500)

    def test_cut_time_in_which_nothing_happens(self):
        """No stretch that is drawn is long; a cut says the ticks from the mark before it to the mark after it."""
        cuts = 0
        for text in all_texts():
            stores, begins, _ = logbook_of(text)
            ticks = sorted({*call_ticks(text), *(store[1] for store in stores), *(begin[0] for begin in begins)})
            gaps = collections.Counter(f"{after - before:,} ticks" for before, after in zip(ticks, ticks[1:]))
            for band in Drawn(text).bands:
                words = [words_of(element) for element in band.texts]
                hidden = words.count("not drawn")
                found = [word for word in words if re.fullmatch("[0-9,]+ ticks?", word)]
                self.assertLessEqual(sum(word not in gaps for word in found), hidden)
                for word in found:
                    self.assertIn(f"{scan_words.us(int(word.split()[0].replace(',', '')))} us", words)
                cuts += len(found)
        self.assertGreater(cuts, 100)

    def test_mark_refused_calls_with_their_number(self):
        refused = 0
        for text in made_up_texts():
            drawn = Drawn(text)
            calls = sorted((call for band in drawn.bands for call in band.calls), key=lambda call: int(call.get("data-call")))
            answers = answers_of(text)
            self.assertEqual([int(call.get("data-number")) for call in calls], answers)
            self.assertEqual([call.get("class") == "refused" for call in calls], [number != 0 for number in answers])
            self.assertEqual(["l4 4l-4 4" in call.get("d") for call in calls], [number != 0 for number in answers])
            words = [words_of(element) for element in drawn.texts if element.get("transform")]
            ignored = [word == "trigger: ignored" for word in words]
            self.assertEqual([call.get("class") == "ignored" for call in calls], ignored)
            said = [re.match("refused ([0-9]+), [a-z ]+: ", word) for word in words]
            self.assertEqual([int(match[1]) if match else 0 for match in said], answers)
            reasons = [element[0].text.partition(": refused with ")[2] for element in drawn.texts if element.get("transform")]
            self.assertEqual(reasons, [f"{number}, {pmc330.Refusal(number).reason}" if number else "" for number in answers])
            refusals = sum(number != 0 for number in answers)
            self.assertTrue(any(f"; {len(answers)} calls, {refusals} refused, " in word for word in drawn.words))
            refused += sum(number != 0 for number in answers)
        self.assertGreater(refused, 200)


def near(one, other):
    return abs(one - other) < 0.2


def call_ticks(text):
    """The tick of each call, and of the end."""
    tick, ticks = 0, []
    for (name, numbers), number in zip(scan_events.calls_of(text)[1], answers_of(text)):
        ticks.append(tick)
        tick += numbers[0] if name == "advance" and number == 0 else 0
    return [*ticks, tick]


def answers_of(text):
    """The numbers that pmc330_run prints."""
    ran = subprocess.run([ROOT / "target/bin/pmc330_run"], input=trace_text.encoded(text), capture_output=True, check=True)
    return [int(line.split()[1]) for line in ran.stdout.decode().splitlines()]


class Words(unittest.TestCase):
    def test_of_calls(self):
        text = """range 1
            read 8 00H
            read 16 14H
            read 32 20H
            read 8 85H
            write 8 04H 9
            write 8 05H 3
            write 8 01H 80H
            write 8 01H 0
            write 8 00H 1
            write 16 00H 8000H
            write 32 04H 12340409H
            write 16 04H 0
            write 8 09H 40H
            write 16 09H 40H
            write 8 10H 1
            write 8 11H 2
            write 32 44H 1
            write 7 28H 1
            read 16 81H
            read 16 FCH
            input 3 -1500000
            input 32 0
            look 3
            clear 31
            advance 0
            advance 16777217
            trigger
            reset"""
        said = [scan_words.said(item) for item in scan_events.events_of(text)[1] if isinstance(item, scan_events.Call)]
        self.assertEqual(said, SAID)

    def test_of_calls_that_act_on_a_cycle(self):
        arming = "range 1\nwrite 16 04H 0502H\ntrigger\ntrigger\nadvance 64\ntrigger\nlook 0\nwrite 16 04H 0\n"
        bursts = "write 16 04H 1301H\nwrite 16 00H 1\nwrite 16 24H 1\nadvance 64\nread 16 00H\nreset\nread 16 24H\n"
        said = [scan_words.said(item) for item in scan_events.events_of(arming + bursts)[1] if isinstance(item, scan_events.Call)]
        self.assertEqual(said, SAID_OF_CYCLES)

    def test_of_a_refusal_in_full(self):
        calls = scan_events.events_of("range 1\nwrite 16 24H 1\nlook 32\n")[1]
        self.assertEqual(
            [scan_words.explained(call) for call in calls],
            [
                "call 1: write Start Convert 0001H: refused with 8, scan is off",
                "call 2: look 32: refused with 22, the slot is above 31",
            ],
        )

    def test_of_microseconds(self):
        self.assertEqual([scan_words.us(ticks) for ticks in [0, 1, 8, 12, 16_777_217]], ["0", "0.125", "1", "1.5", "2,097,152.125"])


SAID = [
    "read Interrupt low byte: 00H", "read New Data 0-15: 0000H", "read Missed Data 16-31: 00000000H",
    "read mailbox 1 high byte: 00H", "write Control low byte 09H", "write Control high byte 03H: burst continuous",
    "write Interrupt high byte 80H: release", "write Interrupt high byte 00H", "write Interrupt low byte 01H: enable",
    "write Interrupt 8000H: release, disable", "write Control 12340409H: burst single", "write Control 0000H: scan off",
    "write Prescaler 40H", "refused 2, bad offset: write 16 09H", "write Start Channel 01H", "write End Channel 02H",
    "write Gain 8-15 00000001H", "refused 1, bad width: write 7 28H", "refused 2, bad offset: read 16 81H",
    "read mailbox 31: 0000H", "input 3: -1.5 V", "refused 11, bad channel: input 32: 0 V", "look 3: 0000H", "clear 31",
    "advance 0: no store", "refused 13, bad ticks: advance 16,777,217", "trigger: ignored", "reset",
]  # fmt: skip
SAID_OF_CYCLES = [
    "write Control 0502H: external trigger only", "trigger: arms", "trigger: ignored", "advance 64: no store",
    "trigger: taken", "look 0: 0000H, New, Missed", "write Control 0000H: scan off", "write Control 1301H: burst continuous",
    "write Interrupt 0001H: enable", "write Start Convert 0001H: starts", "advance 64: 1 store",
    "read Interrupt: 0003H, enabled, pending", "reset", "refused 5, bad direction: read Start Convert",
]  # fmt: skip


class Events(unittest.TestCase):
    def test_of_an_advance_are_drawn_up_to_400_stores(self):
        for channels, ends in [(1, 8), (4, 8), (5, 10), (32, 64)]:
            start = f"range 1\nwrite 16 10H {channels - 1:X}00H\n" + UNIFORM
            for stores, drawn in [(400, 400), (401, 2 * ends)]:
                items = scan_events.events_of(f"{start}advance {64 + 64 * stores}")[1]
                made = [item for item in items if isinstance(item, scan_events.Store)]
                self.assertEqual(len(made), drawn)
                hidden = [item.stores for item in items if isinstance(item, scan_events.Pass) and item.stores]
                self.assertEqual(hidden, [stores - drawn] * (drawn < stores))

    def test_tell_the_channel_of_a_slot(self):
        for control, channels, channel in [(0x0409, 0x1414, 20), (0x0421, 0x1414, 20), (0x0401, 0x0404, 4)]:
            items = scan_events.events_of("range 1\n" + burst(channels, control))[1]
            begins = [item for item in items if isinstance(item, scan_events.Begin)]
            self.assertEqual([(begin.channel, begin.slot) for begin in begins], [(channel, channel)])
        both = burst(0x0404, 0x0301) + "advance 130\nwrite 16 04H 0\n" + burst(0x1414, 0x0409)
        self.assertIn("channel 4/20", Drawn("range 1\n" + both).words)


UNIFORM = "write 8 09H 64\nwrite 16 0CH 1\nwrite 16 04H 0909H\nwrite 16 24H 1\n"  # as close as conversions can be


def burst(channels, control):
    return f"write 16 10H {channels:X}H\nwrite 16 04H {control:X}H\nwrite 16 24H 1\n"


# ---- What can be read ----


def corners(element):
    """Of the letters of a text, in a font of fixed width."""
    width = len(words_of(element)) * LETTER
    turned = re.fullmatch(r"translate\(([0-9.]+) ([0-9.]+)\) rotate\(-45\)", element.get("transform") or "")
    if turned:
        x, y, s = float(turned[1]), float(turned[2]), 0.5**0.5
        return [(x + s * (a + b), y + s * (b - a)) for a, b in [(0, -UP), (width, -UP), (width, DOWN), (0, DOWN)]]
    left = float(element.get("x")) - {None: 0, "middle": width / 2}[element.get("text-anchor")]
    y = float(element.get("y"))
    return [(left, y - UP), (left + width, y - UP), (left + width, y + DOWN), (left, y + DOWN)]


def meet(one, other):
    """Whether two rectangles have a point in common: they have, if no side of either divides them."""
    for rectangle in one, other:
        for (ax, ay), (bx, by) in zip(rectangle, rectangle[1:3]):
            first = [(bx - ax) * x + (by - ay) * y for x, y in one]
            second = [(bx - ax) * x + (by - ay) * y for x, y in other]
            if max(first) < min(second) or max(second) < min(first):
                return False
    return True


class Texts(unittest.TestCase):
    def test_meet_no_other_text_and_no_edge(self):
        seen = 0
        for text in all_texts():
            root = ElementTree.fromstring(picture_of(text))
            width, height = float(root.get("width")), float(root.get("height"))
            shapes = [(corners(element), element) for element in root.iter(f"{SVG}text")]
            shapes.sort(key=lambda shape: min(y for _, y in shape[0]))
            for index, (shape, element) in enumerate(shapes):
                self.assertTrue(all(0 <= x <= width and 0 <= y <= height for x, y in shape), words_of(element))
                bottom = max(y for _, y in shape)
                for other, second in shapes[index + 1 :]:
                    if min(y for _, y in other) > bottom:
                        break
                    self.assertFalse(meet(shape, other), f"{words_of(element)} | {words_of(second)}\n{text}")
            seen += len(shapes)
        self.assertGreater(seen, 10_000)

    def test_of_rectangles_that_meet(self):
        square = [(0, 0), (2, 0), (2, 2), (0, 2)]
        self.assertTrue(meet(square, [(1, 1), (3, 1), (3, 3), (1, 3)]))
        self.assertFalse(meet(square, [(3, 0), (5, 0), (5, 2), (3, 2)]))
        self.assertTrue(meet(square, [(3, 0.5), (4, 1.5), (2.5, 3), (1.5, 2)]))
        self.assertFalse(meet(square, [(4, 1), (5, 2), (3.1, 3.9), (2.1, 2.9)]))


class Errors(unittest.TestCase):
    def test_say_what_is_wrong_in_a_line(self):
        for text, words in [
            ("", "no 'range N': there is nothing to encode"),
            ("range 4\n", "'range 4' is refused with 14: the range is above 3"),
            ("range 0\nlisten\n", "line 2: 'listen' is none of read, write, input, advance, trigger, reset, look, clear, answered"),
            ("range 0\nadvance\n", "line 2: advance takes 1 number, not 0"),
            ("range 0\nreset\nanswered 0 0\nanswered 0 0\n", "an 'answered' after 1 call does not follow a call"),
        ]:
            ended = subprocess.run(
                [sys.executable, "-B", ROOT / "tools/scan_picture.py"], input=text, capture_output=True, text=True
            )
            self.assertEqual((ended.stdout, ended.stderr, ended.returncode), ("", f"scan_picture: {words}\n", 1))

    def test_do_not_come_of_a_text_without_calls(self):
        self.assertIn("0 calls, 0 refused, 0 stores", scan_picture.drawn("range 0\n"))

    def test_of_words_that_svg_would_take_for_its_own(self):
        root = ElementTree.fromstring(scan_picture.drawn("# a < b & \"c\" > d\x01\x1b\nrange 0\nreset\n"))
        self.assertEqual(root.find(f"{SVG}title").text, 'a < b & "c" > d')

    def test_of_a_text_that_is_no_text(self):
        tool = [sys.executable, "-B", ROOT / "tools/scan_picture.py"]
        ended = subprocess.run(tool, input=b"range 1\n# \xff\n", capture_output=True)
        self.assertEqual((ended.stdout, ended.stderr), (b"", b"scan_picture: byte 10: the text is not UTF-8\n"))
        ended = subprocess.run(tool, input="# -5 V ± 1 µV\nrange 1\n".encode(), capture_output=True, env={"LC_ALL": "C"})
        self.assertIn("-5 V ± 1 µV".encode(), ended.stdout)


if __name__ == "__main__":
    unittest.main()
