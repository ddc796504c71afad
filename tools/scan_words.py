"""The calls of a scan in words, as tools/scan_picture.py writes them beside their marks."""

from pmc330 import Interrupt, Refusal, Register, Scan
from trace_text import counted

REGISTERS = {
    Register.INTERRUPT: "Interrupt",
    Register.CONTROL: "Control",
    Register.PRESCALER_WORD: "Prescaler",
    Register.TIMER: "Timer",
    Register.CHANNELS: "Channels",
    Register.NEW_DATA_LOW: "New Data 0-15",
    Register.NEW_DATA_HIGH: "New Data 16-31",
    Register.MISSED_DATA_LOW: "Missed Data 0-15",
    Register.MISSED_DATA_HIGH: "Missed Data 16-31",
    Register.START_CONVERT: "Start Convert",
    **{Register.gain(group): f"Gain {8 * group}-{8 * group + 7}" for group in range(4)},
    **{Register.mailbox(slot): f"mailbox {slot}" for slot in range(32)},
}
BYTES = {Register.PRESCALER: "Prescaler", Register.START_CHANNEL: "Start Channel", Register.END_CHANNEL: "End Channel"}
SCANS = {scan: scan.name.lower().replace("_", " ") for scan in Scan} | {Scan.OFF: "scan off"}
RANGES = ["-5 V to 5 V", "-10 V to 10 V", "0 V to 5 V", "0 V to 10 V"]


def hexadecimal(value, width):
    return f"{value:0{width // 4}X}H"


def code(value):
    return hexadecimal(value, 16)


def trimmed(value, digits):
    return f"{value:,.{digits}f}".rstrip("0").rstrip(".")


def us(ticks):
    return trimmed(ticks / 8, 3)


def place(offset, width):
    """The register that an access begins in; its offset where there is none."""
    word, byte = offset // 4 * 4, offset % 4
    if word not in REGISTERS or byte > 1:
        return hexadecimal(offset, 8)
    if width != 8:
        return REGISTERS[word]
    return BYTES.get(offset, REGISTERS[word] + [" low byte", " high byte"][byte])


def mailbox_of(call):
    """The slot of a call that reads, looks at or clears one mailbox, or None."""
    if call.number != 0 or call.name not in ("read", "look", "clear"):
        return None
    if call.name != "read":
        return call.arguments[0]
    slot = (call.arguments[1] - Register.mailbox(0)) // 4
    return slot if slot >= 0 else None


def meaning(width, offset, value):
    """What a write to Control says of the scan, and one to Interrupt of the request."""
    is_low, is_high = width != 8 or offset % 4 == 0, width != 8 or offset % 4 == 1
    word = value if is_low else value * 256
    words = []
    if offset // 4 * 4 == Register.CONTROL and is_high:
        words.append(SCANS[Scan(word & 0x0700)])
    if offset // 4 * 4 == Register.INTERRUPT and word & Interrupt.RELEASE:
        words.append("release")
    if offset == Register.INTERRUPT:
        words.append("enable" if word & Interrupt.ENABLE else "disable")
    return ": " + ", ".join(words) if words else ""


def asked(call):
    """A call without its answer. Where width or offset is wrong, they stand as they are."""
    if call.number in (Refusal.BAD_WIDTH, Refusal.BAD_OFFSET):
        return f"{call.name} {call.arguments[0]} {hexadecimal(call.arguments[1], 8)}"
    if call.name == "read":
        return f"read {place(call.arguments[1], call.arguments[0])}"
    if call.name == "write":
        width, offset, value = call.arguments
        written = hexadecimal(value, width) if width in (8, 16, 32) else f"{value:X}H"
        return f"write {place(offset, width)} {written}"
    if call.name == "input":
        return f"input {call.arguments[0]}: {trimmed(call.arguments[1] / 1_000_000, 6)} V"
    if call.name == "advance":
        return f"advance {call.arguments[0]:,}"
    return " ".join([call.name, *map(str, call.arguments)])


def bits(value, names):
    """The names of the bits that are set."""
    return "".join(f", {name}" for bit, name in names.items() if value & bit)


def answered(call):
    """What an accepted call adds to it."""
    if call.name == "read":
        width, offset = call.arguments
        names = {Interrupt.ENABLE: "enabled", Interrupt.PENDING: "pending"} if offset == Register.INTERRUPT else {}
        return f": {hexadecimal(call.value, width)}{bits(call.value, names)}"
    if call.name == "look":
        return f": {code(call.value % 0x10000)}{bits(call.value, {0x10000: 'New', 0x20000: 'Missed'})}"
    if call.name == "advance":
        return ": " + (counted(call.value, "store") if call.value else "no store")
    if call.name == "write" and (words := meaning(*call.arguments)):
        return words
    return f": {call.effect}" if call.effect and call.name != "reset" else ""


def said(call):
    """A call and its answer, in a few words."""
    if call.number == 0:
        return asked(call) + answered(call)
    return f"refused {call.number}, {Refusal(call.number).name.lower().replace('_', ' ')}: {asked(call)}"


def explained(call):
    """The same in full, with the reason of a refusal."""
    words = f"call {call.index}: {asked(call)}"
    return f"{words}: refused with {call.number}, {Refusal(call.number).reason}" if call.number else words + answered(call)


def begun(begin):
    return f"tick {begin.tick:,}, {us(begin.tick)} us: a conversion of channel {begin.channel} takes its code, {code(begin.code)}"


def stored(store):
    words = f"tick {store.tick:,}, {us(store.tick)} us: {code(store.code)} is stored in slot {store.slot}"
    return words if store.lost is None else f"{words}; {code(store.lost)} was there, and nobody had read it: Missed"
