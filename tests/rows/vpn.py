"""Rows of a phone whose VPN leaves: each deletion of that broken in turn, and each addition before it refused in turn."""
import pathlib

from case import Case
from failing import case as by_the_model

WATCHED = pathlib.Path(__file__).parent / "cases" / "vpn-leaves-watched"
FIRST_COMMAND = 7
LAST_ADDITION = 34
# The first of the eight rules that go before the watched packet changes its way, and of all thirteen that go.
SWITCH, DELETIONS = 8, 13

PACKETS = """\
packet 10050 0x64 8.8.8.8
packet 10050 0x64 10.1.2.3
packet 10050 0x0 8.8.8.8
packet 10050 0x0 10.1.2.3
"""


def vpn_cases():
    yield from halted()
    yield from refused()


def halted():
    """The VPN's interface leaves, and a deletion breaks: by the ninth the watched packet was prohibited already."""
    stdin, stdout = (WATCHED / "stdin").read_bytes(), (WATCHED / "stdout").read_bytes()
    before = stdout[: stdout.index(b"19: ")]
    for broken in range(1, DELETIONS + 1):
        said = before + (b"19: request 42 prohibited\n" if broken > SWITCH else b"")
        said += b"19: halted at request %d\n" % (LAST_ADDITION + broken)
        yield Case("vpn-leaves-halted-%d" % broken, stdin, said, 7, ("run", "--break", str(broken)))


def refused():
    """An addition is refused: its command is as if it had not been given, and after each command packets go where the policy says."""
    lines = (WATCHED / "stdin").read_text().splitlines(True)
    script = "".join(line if line.startswith(("trace", "watch")) else line + PACKETS for line in lines)
    for number in range(FIRST_COMMAND, LAST_ADDITION + 1):
        row = by_the_model("vpn-refused-%d" % number, script, ("run", "--refuse", str(number)))
        assert row.stdout.count(b": kernel refused request %d\n" % number) == 1
        yield row
