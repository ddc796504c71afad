"""Texts of calls made up from a seed: a driver that scans in all modes, reads some mailboxes and forgets others, and makes
mistakes."""

import random

SCANS = range(1, 6)


def text(seed, calls, longest=900):
    draw = random.Random(seed)
    lines = [f"range {draw.randrange(4)}"]
    while len(lines) <= calls:
        lines += draw.choices(KINDS, WEIGHTS)[0](draw, longest)
    return "\n".join(lines) + "\n"


def scan(draw, _):
    """What a driver writes to start a scan, as a rule one that is accepted on an idle board."""
    is_differential, mode = draw.random() < 0.4, draw.choice(SCANS)
    first = draw.randrange(16 if is_differential else 32)
    last = min(first + draw.choice([0, 1, 2, 5, 31]), 15 if is_differential else 31)
    control = draw.randrange(2) | mode << 8 | draw.choice([0, 1, 1, 2]) << 12
    control |= 0 if is_differential else draw.choice([1, 1, 1, 3, 7]) << 3
    control |= 0x0800 if mode <= 2 or draw.random() < 0.5 else 0
    control |= 0x0002 if mode == 5 or draw.random() < 0.3 else 0
    if draw.random() < 0.1:
        first, last = last, first
    lines = [
        f"write 16 10H {last:X}{first:02X}H",
        f"write 8 09H {draw.choice([8, 16, 63, 64, 80])}",
        f"write 16 0CH {draw.choice([1, 1, 2, 8, 10])}",
        f"write 16 04H {control:X}H",
        f"write 16 00H {draw.choice([0, 1, 1])}",
        draw.choice(["write 16 24H 1", "write 16 24H 1", "trigger"]),
    ]
    return ["write 8 05H 0", *lines] if draw.random() < 0.7 else lines


def time(draw, longest):
    return [f"advance {draw.choice([0, 1, 63, 64, 120, draw.randrange(longest), draw.randrange(longest)])}"]


def served(draw, _):
    """A request is served, mailboxes are read."""
    lines = ["read 16 1CH", "read 32 20H", f"read 16 {draw.choice(['14H', '18H'])}"]
    lines += [f"read {draw.choice([8, 16, 32])} {0x80 + 4 * slot:X}H" for slot in draw.sample(range(32), 6)]
    return [*lines, f"write 16 00H {draw.choice(['8001H', '8000H', '0', '1'])}"]


def other(draw, _):
    slot = draw.randrange(34)
    return [
        draw.choice(
            [f"look {slot}", f"clear {slot}", "trigger", f"input {slot} {draw.randrange(-12_000_000, 12_000_000)}"]
        )
    ]


def triggers(draw, _):
    return [line for _ in range(4) for line in (f"advance {draw.choice([1, 63, 64, 100])}", "trigger")]


def seldom(draw, _):
    return [draw.choice(["reset", "write 16 04H 0", "write 8 05H 0", f"write 16 40H {draw.randrange(65536)}"])]


def mistake(draw, _):
    """What is refused, or is if it comes at a wrong time."""
    value = draw.choice([0, 1, 255, 256, 65535, 65536, 2**32 - 1])
    return [
        draw.choice(
            [
                f"read {draw.choice([0, 7, 8, 16, 32])} {draw.randrange(300)}",
                f"write {draw.choice([0, 7, 8, 16, 32])} {draw.randrange(300)} {value}",
                f"input {draw.randrange(256)} {draw.choice([-35_000_001, -35_000_000, 55_000_000, 55_000_001])}",
                f"advance {draw.choice([16_777_217, 2**32 - 1])}",
                f"write 16 04H {draw.randrange(65536)}",
                f"write 16 10H {draw.randrange(65536)}",
                "write 16 24H 1",
            ]
        )
    ]


KINDS = [scan, time, served, other, triggers, seldom, mistake]
WEIGHTS = [4, 12, 2, 2, 1, 1, 2]
