"""Rows of what is read and printed: words of the command line, addresses and prefixes."""
from case import Case, dialog, done, listed

USAGE = b"usage: netd_run run [--refuse LIST] [--break LIST]\n       netd_run check\n       netd_run soak SEED COUNT\n"

# An interface 'w' of network 100, which asks for no permission.
NETWORK = done("link add w 2", "network create 100 physical none", "interface add 100 w")

# Words that have the form, and what the start says then.
FORMS = {
    "run": b"",
    "run --refuse 8": b"",
    "run --break=1,2 --refuse 8": b"",
    "run --break=4294967295": b"",
    "run --refuse=1,20,300 --break=7": b"start: refused at request 1\n",
    "run --break 7 --refuse 1": b"start: refused at request 1\n",
    "check": b"",
    "soak 7 0": b"turns 15 done 15 refused 0 rules 22 requests 42\n",
    "soak 7 1": b"turns 16 done 15 refused 0 rules 22 requests 42\n",
    "soak 18446744073709551615 0": b"turns 15 done 15 refused 0 rules 22 requests 42\n",
    "soak 7 2000": b"turns 2015 done 1048 refused 778 rules 140 requests 6328\n",
}

# Words that have none. '_' stands for an empty word.
NO_FORMS = (
    "_",
    "run _",
    "run --refuse 1,1",
    "run --refuse 0",
    "run --refuse 01",
    "run --refuse +1",
    "run --refuse 4294967296",
    "run --refuse 1,",
    "run --refuse ,1",
    "run --refuse",
    "run --refuse=",
    "run --refuse _",
    "run --refuse 8 --refuse=9",
    "run --ref 8",
    "run --break 1 x",
    "run -r 8",
    "run -h",
    "run --help",
    "run --refuse --version",
    "--refuse 8 run",
    "--help",
    "--version",
    "-V run",
    "RUN",
    "chec",
    "Check",
    "check check",
    "check run",
    "run check",
    "check --refuse 8",
    "check _",
    "check --help",
    "-V check",
    "soak",
    "soak 7",
    "soak 7 _",
    "soak 7 100001",
    "soak 07 1",
    "soak 7 +1",
    "soak 7 0x1",
    "soak 18446744073709551616 1",
    "soak 7 1 2",
    "soak -7 1",
    "soak --seed=7 1",
    "soak 7 --help",
    "7 1 soak",
)

# How an address may be written, and how it is printed (RFC 4291 section 2.2, RFC 5952 section 4).
ADDRESSES = {
    "0:0:0:0:0:0:0:0": "::",
    "0:0:0:0:0:0:0:1": "::1",
    "2001:db8:0:0:1:0:0:1": "2001:db8::1:0:0:1",
    "2001:db8:0:1:1:1:1:1": "2001:db8:0:1:1:1:1:1",
    "fe80:0:0:0:0:0:0:5": "fe80::5",
    "1:2:3:4:5:6:7::": "1:2:3:4:5:6:7:0",
    "::2:3:4:5:6:7:8": "0:2:3:4:5:6:7:8",
    "2001:0DB8:0:0:0:0:0:0": "2001:db8::",
    "0:0::ABCD": "::abcd",
    "1:0:0:2:0:0:0:0": "1:0:0:2::",
}

PREFIXES = {
    "2001:0DB8:0:0:0:0:0:0/32": "2001:db8::/32",
    "0:0::0/0": "::/0",
    "1:0:0:2:0:0:0:0/64": "1:0:0:2::/64",
    "::FFFF/128": "::ffff/128",
    "10.0.0.0/24": "10.0.0.0/24",
    "255.255.255.255/32": "255.255.255.255/32",
}

NO_ADDRESSES = (
    "01.2.3.4",
    "1.2.3",
    "1.2.3.4.5",
    "1.2.3.256",
    "1:2:3:4:5:6:7",
    "1::2::3",
    "1:2:3:4:5:6:7:8::",
    "12345::",
    "::ffff:1.2.3.4",
    "fe80::5%wlan0",
)

NO_PREFIXES = ("10.0.0.0/33", "10.0.0.0/08", "10.0.0.0/", "10.0.0.1/24", "::/129", "::1/127", "10.0.0.0")


def text_cases():
    yield from words()
    yield dialog("addresses", [*NETWORK, *gateways()])
    yield dialog("prefixes", [*NETWORK, *prefixes()])
    for text in NO_ADDRESSES:
        yield dialog("no-address-" + text, [("packet 10050 0x0 " + text, "bad line at column 18")], status=3)
    for text in NO_PREFIXES:
        yield dialog("no-prefix-" + text, [("route add 100 w " + text, "bad line at column 17")], status=3)


def words():
    for line, said in FORMS.items():
        yield Case("form-" + line, b"", said, 8 if said.startswith(b"start") else 0, tuple(line.split()))
    for line in NO_FORMS:
        yield Case("no-form-" + line, b"", USAGE, 2, tuple(word.replace("_", "") for word in line.split()))


def gateways():
    """Each address as a gateway, which is printed with the table."""
    for text, printed in ADDRESSES.items():
        yield from shown_route("::/0 via " + text, "::/0 via %s dev w" % printed, "::/0")
    yield from shown_route("0.0.0.0/0 via 10.0.255.1", "0.0.0.0/0 via 10.0.255.1 dev w", "0.0.0.0/0")


def prefixes():
    for text, printed in PREFIXES.items():
        yield from shown_route(text, printed + " dev w", printed)


def shown_route(given, printed, prefix):
    """A route comes, is printed, and goes."""
    yield "route add 100 w " + given, "done"
    yield "show table 1002", listed("1 routes", printed)
    yield "route remove 100 w " + prefix, "done"
