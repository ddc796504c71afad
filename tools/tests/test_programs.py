"""What the programs print goes out at once: standard output has no buffer, and a reader of a pipe is to find whole lines."""

import pathlib
import socket
import subprocess
import sys
import unittest

ROOT = pathlib.Path(__file__).resolve().parent.parent.parent
sys.path.insert(0, str(ROOT / "tools"))

import trace_text


def writes(program, trace):
    """What a program writes, write by write: a socket of packets keeps them apart."""
    ours, theirs = socket.socketpair(socket.AF_UNIX, socket.SOCK_SEQPACKET)
    with ours:
        with theirs:
            subprocess.run([ROOT / "target/bin" / program], input=trace, stdout=theirs, check=True, timeout=60)
        return list(iter(lambda: ours.recv(65536), b""))


class Writes(unittest.TestCase):
    def test_the_lines_of_a_trace_are_one_write(self):
        for name in ("first", "recording"):
            trace = trace_text.encoded((ROOT / f"examples/{name}.calls").read_text())
            self.assertEqual(writes("pmc330_run", trace), [(ROOT / f"examples/{name}.lines").read_bytes()])

    def test_the_line_of_a_refused_trace_is_one_write(self):
        stray = trace_text.encoded("range 0\nanswered 0 0\n")
        for trace, line in ((b"", b"refused 18\n"), (stray[:10], b"refused 19\n"), (stray, b"refused 26\n")):
            self.assertEqual(writes("pmc330_run", trace), [line])
            self.assertEqual(writes("pmc330_replay", trace), [line])

    def test_the_line_of_a_replay_is_one_write(self):
        trigger, wrong = "range 0\n" + "trigger\nanswered 0 0\n" * 12, "trigger\nanswered 1 0\n"
        self.assertEqual(writes("pmc330_replay", trace_text.encoded(trigger)), [b"agree 12\n"])
        self.assertEqual(writes("pmc330_replay", trace_text.encoded(trigger + wrong)), [b"differs 13 13\n"])


if __name__ == "__main__":
    unittest.main()
