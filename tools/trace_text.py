#!/usr/bin/env python3
"""Turn a text of calls into a trace, and a trace back into text; make a recording from a trace and its answers.

    trace_text.py encode < calls.txt > calls.trace
    trace_text.py decode < calls.trace
    trace_text.py record TRACE LINES > RECORDING

The text: first `range N`, then one call a line:

    read WIDTH OFFSET
    write WIDTH OFFSET VALUE
    input CHANNEL MICROVOLTS
    advance TICKS
    trigger
    reset
    look SLOT
    clear SLOT

A line after a call may say what a board answered to it, for pmc330_replay to compare:

    answered NUMBER VALUE

A number is decimal, or hexadecimal with a trailing H. What follows a # is a comment.
Numbers that a board would refuse are encoded as they are, if they fit their field; so is an answer in a wrong place.

To record: TRACE is a file with a trace, and LINES a file with what pmc330_run printed for it. In the recording each
call is followed by its answer. Recorded answers that the trace has already are replaced, with a note.
"""

import re
import sys

# Each call, and the recorded answer: its tag, and each field's name, bytes and whether it has a sign.
FIELDS = {
    "read": (0x01, [("width", 1, False), ("offset", 2, False)]),
    "write": (0x02, [("width", 1, False), ("offset", 2, False), ("value", 4, False)]),
    "input": (0x03, [("channel", 1, False), ("microvolts", 4, True)]),
    "advance": (0x04, [("ticks", 4, False)]),
    "trigger": (0x05, []),
    "reset": (0x06, []),
    "look": (0x07, [("slot", 1, False)]),
    "clear": (0x08, [("slot", 1, False)]),
    "answered": (0x09, [("number", 1, False), ("value", 4, False)]),
}
ANSWERED = FIELDS["answered"][0]
HEADING = b"A330"
LINE = re.compile("([0-9]{1,8}) ([0-9]{1,3}) ([0-9A-Fa-f]{8})")  # of pmc330_run
PROGRAMS_TAKE = 32768  # bytes, and C up to:
C_TAKES = 16777216


class Wrong(Exception):
    """What is wrong with the input, for a person to read."""


def note(text):
    print(f"trace_text: note: {text}", file=sys.stderr)


def number(word):
    try:
        return int(word[:-1], 16) if word[-1:] in ("H", "h") else int(word)
    except ValueError:
        raise Wrong(f"'{word}' is no number (decimal, or hexadecimal with a trailing H)")


def counted(count, noun):
    return f"{count:,} {noun}{'' if count == 1 else 's'}"


def field(tag, body):
    return bytes([tag]) + len(body).to_bytes(2, "little") + body


def encoded_line(words):
    name, arguments = words[0], words[1:]
    if name not in FIELDS:
        raise Wrong(f"'{name}' is none of {', '.join(FIELDS)}")
    tag, fields = FIELDS[name]
    if len(arguments) != len(fields):
        raise Wrong(f"{name} takes {counted(len(fields), 'number')}, not {len(arguments)}")
    body = b""
    for word, (what, size, signed) in zip(arguments, fields):
        try:
            body += number(word).to_bytes(size, "little", signed=signed)
        except OverflowError:
            raise Wrong(f"the {what} {word} does not fit {counted(size, 'byte')}")
    return field(tag, body)


def encoded(text):
    out = b""
    for at, line in enumerate(text.splitlines(), 1):
        words = line.split("#")[0].split()
        if not words:
            continue
        try:
            if not out:
                if words[0] != "range" or len(words) != 2:
                    raise Wrong("the first line is 'range N'")
                wanted = number(words[1])
                if not 0 <= wanted <= 255:
                    raise Wrong(f"the range {words[1]} does not fit a byte")
                out = field(0x00, HEADING + bytes([wanted]))
            else:
                out += encoded_line(words)
        except Wrong as wrong:
            raise Wrong(f"line {at}: {wrong}")
    if not out:
        raise Wrong("no 'range N': there is nothing to encode")
    return out


def fields_of(trace):
    """Each field's tag and body; the first is the heading's."""
    if not trace:
        raise Wrong("no heading: the trace is empty")
    if len(trace) < 8 or trace[:7] != field(0x00, HEADING + b"?")[:7]:
        raise Wrong("no heading: the first field is 00H with 'A330' and the range")
    sizes = {tag: sum(size for _, size, _ in fields) for tag, fields in FIELDS.values()}
    found, at = [(0x00, trace[3:8])], 8
    while at < len(trace):
        tag, size = trace[at], int.from_bytes(trace[at + 1 : at + 3], "little")
        end = at + 3 + size
        if at + 3 <= len(trace) and sizes.get(tag) != size:
            raise Wrong(f"byte {at}: no field after the heading has tag {tag:02X}H and length {size}")
        if end > len(trace):
            raise Wrong(f"byte {at}: a field that is cut off")
        found.append((tag, trace[at + 3 : end]))
        at = end
    return found


def numbers_of(fields, body):
    numbers, at = [], 0
    for _, size, signed in fields:
        numbers.append(int.from_bytes(body[at : at + size], "little", signed=signed))
        at += size
    return numbers


def decoded_body(fields, body):
    whats = [what for what, _, _ in fields]
    return [
        f"{value:X}H" if what in ("offset", "value") else str(value)
        for what, value in zip(whats, numbers_of(fields, body))
    ]


def decoded(trace):
    (_, heading), *rest = fields_of(trace)
    names = {tag: (name, fields) for name, (tag, fields) in FIELDS.items()}
    lines = [f"range {heading[4]}"]
    for tag, body in rest:
        name, fields = names[tag]
        lines.append(" ".join([name] + decoded_body(fields, body)))
    return "\n".join(lines) + "\n"


def answers_of(text):
    """The answers that pmc330_run printed, each as the body of a recorded answer."""
    answers = []
    for at, line in enumerate(text.splitlines(), 1):
        if line.startswith("refused "):
            raise Wrong(f"line {at}: {line[:40]!r}: the trace was refused, so there are no answers")
        words = LINE.fullmatch(line)
        if not words or int(words[2]) > 255:
            raise Wrong(f"line {at}: {line[:40]!r} is not INDEX NUMBER VALUE, as pmc330_run prints it")
        if int(words[1]) != at:
            raise Wrong(f"line {at}: the index {words[1]} is out of turn")
        answers.append(bytes([int(words[2])]) + int(words[3], 16).to_bytes(4, "little"))
    return answers


def recorded(trace, text):
    heading, *rest = fields_of(trace)
    calls = [field(tag, body) for tag, body in rest if tag != ANSWERED]
    answers = answers_of(text)
    if len(answers) != len(calls):
        why = f"; pmc330_run takes only the first {PROGRAMS_TAKE:,} bytes of it" if len(trace) > PROGRAMS_TAKE else ""
        raise Wrong(f"{counted(len(answers), 'line')} of answers, and {counted(len(calls), 'call')} in the trace{why}")
    if len(calls) < len(rest):
        note(f"replaced {counted(len(rest) - len(calls), 'answer')} that the trace had already")
    return field(*heading) + b"".join(call + field(ANSWERED, answer) for call, answer in zip(calls, answers))


def contents(path):
    try:
        with open(path, "rb") as file:
            return file.read()
    except OSError as error:
        raise Wrong(f"{path}: {error.strerror}")


def put(trace):
    sys.stdout.buffer.write(trace)
    if len(trace) > PROGRAMS_TAKE:
        note(
            f"the trace has {len(trace):,} bytes, and the programs take only the first {PROGRAMS_TAKE:,}; "
            f"from C a trace has up to {C_TAKES:,}"
        )


def main():
    try:
        if sys.argv[1:] == ["encode"]:
            put(encoded(sys.stdin.read()))
        elif sys.argv[1:] == ["decode"]:
            sys.stdout.write(decoded(sys.stdin.buffer.read()))
        elif sys.argv[1:2] == ["record"] and len(sys.argv) == 4:
            trace, lines = contents(sys.argv[2]), contents(sys.argv[3])
            put(recorded(trace, lines.decode("ascii", "replace")))
        else:
            sys.exit(__doc__)
    except Wrong as wrong:
        sys.exit(f"trace_text: {wrong}")


if __name__ == "__main__":
    main()
