"""Rows that are made: of lines and their answers, of stored rows, or too large to store."""
import pathlib

from case import Case, dialog, done, listed
from texts import NETWORK, USAGE

CASES = pathlib.Path(__file__).parent / "cases"
INPUT_LIMIT = 16_777_216
LINE_LIMIT = 512

BY_OWN = "0 lookup 255"
BY_LOCAL = "17000 lookup 97"
BY_NAMED = "19000 lookup 1002"
BY_LAST = "32000 unreachable"


def made_cases():
    yield from shown()
    yield from packets()
    yield from special_routes()
    yield from removed_links()
    yield from broken_permissions()
    yield from eight_interfaces()
    yield from long_words()
    yield from large_inputs()


def shown():
    """What 'show' answers: tables that are there, emptied or absent, networks, and the rules of IPv6."""
    added = done(
        "route add 100 w 10.0.0.0/8",
        "route add 100 w 0.0.0.0/0 via 192.168.1.1",
        "route add 100 w 10.1.0.0/16 unreachable",
        "route add 100 w 10.2.0.0/16 throw",
        "route add 100 w 2001:DB8::/32 via FE80::1",
    )
    removed = done(
        "route remove 100 w 10.1.0.0/16 special",
        "route remove 100 w 10.0.0.0/8",
        "route remove 100 w 2001:db8::/32",
        "route remove 100 w 10.2.0.0/16 special",
        "route remove 100 w 0.0.0.0/0",
    )
    full = listed(
        "5 routes",
        "10.0.0.0/8 dev w",
        "0.0.0.0/0 via 192.168.1.1 dev w",
        "unreachable 10.1.0.0/16",
        "throw 10.2.0.0/16",
        "2001:db8::/32 via fe80::1 dev w",
    )
    shows = [("show table 1003", "0 routes"), ("show table 1002", full)]
    emptied = [("show table 1002", "0 routes"), ("show table 255", listed("2 routes", "127.0.0.0/8 dev lo", "::1/128 dev lo"))]
    yield dialog("show-table", NETWORK + added + shows + removed + emptied)

    local = "99 local interfaces -"
    grown = done("link add v 3", "network create 65535 physical system", "network create 101 physical network", "interface add 100 v")
    networks = listed(
        "4 networks",
        local,
        "100 physical none interfaces w,v",
        "65535 physical system interfaces -",
        "101 physical network interfaces -",
    )
    shows = [("show networks", listed("1 networks", local))]
    yield dialog("show-networks", shows + NETWORK + grown + [("show networks", networks)])

    rules = listed(
        "9 rules",
        "0: from all lookup 255",
        "10500: from all iif lo oif w uidrange 0-0 lookup 1002",
        "12500: from all fwmark 0x0/0x20000 iif lo uidrange 10000-19999 prohibit",
        "13000: from all fwmark 0x10063/0x1ffff iif lo lookup 97",
        "13000: from all fwmark 0x10064/0x1ffff iif lo lookup 1002",
        "14000: from all iif lo oif w lookup 1002",
        "17000: from all fwmark 0x0/0x10000 lookup 97",
        "19000: from all fwmark 0x64/0x1ffff iif lo lookup 1002",
        "32000: from all unreachable",
    )
    locked = done("lockdown add 10000-19999")
    yield dialog("show-rules-6", NETWORK + locked + [("show rules 6", rules), ("show rules 4", rules)])


def packets():
    """A packet on a link that no one knows, and packets that go by a gateway."""
    yield dialog("packet-on-unknown-link", [("packet 10050 0x0 8.8.8.8 on x", "refused ENODEV")])

    routes = done("route add 100 w 0.0.0.0/0 via 192.168.1.1", "route add 100 w ::/0 via fe80::1", "route add 100 w 10.0.0.0/8")
    trail = (BY_OWN, BY_LOCAL, BY_NAMED)
    asks = [
        ("packet 10050 0x64 8.8.8.8", listed("mark 0x64 out w via 192.168.1.1", *trail)),
        ("packet 10050 0x64 2001:db8::1", listed("mark 0x64 out w via fe80::1", *trail)),
        ("packet 10050 0x64 10.1.2.3", listed("mark 0x64 out w", *trail)),
        ("packet 10050 0x64 127.0.0.1", listed("mark 0x64 loopback", BY_OWN)),
    ]
    yield dialog("packet-by-gateway", NETWORK + routes + asks)

    nowhere = listed("mark 0x0 unreachable", BY_OWN, BY_LOCAL, BY_LAST)
    barred = listed("mark 0x0 prohibited", BY_OWN, "12500 prohibit")
    device = listed("mark 0x0 loopback", BY_OWN)
    asks = [
        ("packet 9999 0x0 8.8.8.8", nowhere),
        ("packet 10000 0x0 8.8.8.8", barred),
        ("packet 19999 0x0 8.8.8.8", barred),
        ("packet 20000 0x0 8.8.8.8", nowhere),
        ("packet 10000 0x20000 8.8.8.8", nowhere.replace("0x0", "0x20000")),
        ("packet 10000 0x0 127.255.255.255", device),
        ("packet 10000 0x0 128.0.0.0", barred),
        ("packet 10000 0x0 ::1", device),
        ("packet 10000 0x0 ::2", barred),
    ]
    yield dialog("lockdown-edges", done("lockdown add 10000-19999") + asks)

    locked = done("route add 100 w 0.0.0.0/0 via 192.168.1.1", "lockdown add 0-4294967294")
    asks = [
        ("packet 0 0x0 8.8.8.8 on w", listed("mark 0x0 out w via 192.168.1.1", BY_OWN, "10500 lookup 1002")),
        ("packet 1000 0x0 8.8.8.8 on w", barred),
        ("packet 0 0x0 8.8.8.8", barred),
    ]
    yield dialog("lockdown-root", NETWORK + locked + asks)


def special_routes():
    """Routes that refuse or lead on come and go, and packets are asked after each."""
    packet = "packet 10050 0x64 10.1.2.3"
    out = (packet, listed("mark 0x64 out w", BY_OWN, BY_LOCAL, BY_NAMED))
    refused = (packet, listed("mark 0x64 unreachable", BY_OWN, BY_LOCAL, BY_NAMED))
    thrown = (packet, listed("mark 0x64 unreachable", BY_OWN, BY_LOCAL, BY_NAMED, BY_LAST))
    add, remove = "route add 100 w 10.0.0.0/8 ", "route remove 100 w 10.0.0.0/8"
    refuses = done(add + "unreachable") + [refused, (add + "throw", "refused EEXIST"), (remove, "refused ESRCH")]
    goes = done(remove + " special") + [out]
    throws = done(add + "throw") + [thrown]
    yield dialog("special-routes", NETWORK + done("route add 100 w 0.0.0.0/0") + [out] + refuses + goes + throws + goes)


def removed_links():
    """A link that goes is unknown then, and its name and its index are free."""
    bound = "packet 10050 0x0 8.8.8.8 on w"
    nowhere = (bound, listed("mark 0x0 unreachable", BY_OWN, BY_LOCAL, BY_LAST))
    gone = done("link remove w") + [(bound, "refused ENODEV"), ("link remove w", "refused ENODEV")]
    yield dialog("link-removed", done("link add w 2", "link add v 3") + [nowhere] + gone + done("link add w 4", "link add x 2"))


def broken_permissions():
    """A network's permission is changed: each of its twelve additions, requests 23 to 34, is refused in turn, and each of its sixteen
    deletions, requests 35 to 50, breaks in turn."""
    case = CASES / "permission-carried"
    stdin, stdout = (case / "stdin").read_bytes(), (case / "stdout").read_bytes()
    before = stdout[: stdout.index(b"7: done\n")]
    rules = before[before.index(b"6: ") + 3:]
    for refused in range(23, 35):
        said = before + b"7: kernel refused request %d\n8: " % refused + rules
        yield Case("permission-refused-%d" % refused, stdin, said, words=("run", "--refuse", str(refused)))
    for broken in range(1, 17):
        said = before + b"7: halted at request %d\n" % (34 + broken)
        yield Case("permission-halted-%d" % broken, stdin, said, 7, ("run", "--break", str(broken)))


def eight_interfaces():
    """A new permission of a network with 8 interfaces: 48 additions after the 70 from before, and 64 deletions."""
    links = range(2, 10)
    built = done(*("link add w%d %d" % (link, link) for link in links), "network create 100 physical none")
    built += done(*("interface add 100 w%d" % link for link in links))
    change = "permission network 100 system"
    rules = ["28 rules", "0: from all lookup 255"]
    rules += ["10500: from all fwmark 0xc0000/0xc0000 iif lo oif w%d uidrange 0-0 lookup %d" % (link, 1000 + link) for link in links]
    rules += ["13000: from all fwmark 0x10063/0x1ffff iif lo lookup 97"]
    rules += ["13000: from all fwmark 0xd0064/0xdffff iif lo lookup %d" % (1000 + link) for link in links]
    rules += ["14000: from all fwmark 0xc0000/0xc0000 iif lo oif w%d lookup %d" % (link, 1000 + link) for link in links]
    rules += ["17000: from all fwmark 0x0/0x10000 lookup 97", "32000: from all unreachable"]
    yield dialog("eight-interfaces", built + [(change, "done"), ("show rules 4", listed(*rules))])

    names = ",".join("w%d" % link for link in links)
    as_before = listed("2 networks", "99 local interfaces -", "100 physical none interfaces " + names)
    refused = [(change, "kernel refused request 118"), ("show networks", as_before)]
    yield dialog("eight-interfaces-refused", built + refused, words=("run", "--refuse", "118"))
    halted = [(change, "halted at request 182")]
    yield dialog("eight-interfaces-halted", built + halted, words=("run", "--break", "64"), status=7)


def long_words():
    """Lists of 1,000 numbers and of one more, a word that isn't UTF-8, and a line as long as a line may be."""
    numbers = [str(number) for number in range(8, 1008)]
    # The first try has one addition and its deletion before it is undone; each later one has one addition.
    answers = ["kernel refused request 8"] + ["kernel refused request %d" % (number + 8) for number in range(2, 1001)]
    tries = [("lockdown add 0-9", answer) for answer in [*answers, "done"]]
    yield dialog("refuse-1000-numbers", tries, words=("run", "--refuse", ",".join(numbers)))
    yield Case("refuse-1001-numbers", b"", USAGE, 2, ("run", "--refuse", ",".join([*numbers, "1008"])))
    yield Case("words-not-utf-8", b"lockdown add 0-9\n", USAGE, 2, ("run", "--refuse", b"8\xff"))
    yield Case("word-not-utf-8", b"lockdown add 0-9\n", USAGE, 2, (b"\xc3",))

    line = "lockdown" + " " * (LINE_LIMIT - len("lockdown") - len("add 0-9")) + "add 0-9"
    cut = "lockdown add".ljust(LINE_LIMIT)
    yield dialog("line-512", [(line, "done"), (cut, "bad line at column 513")], status=3)


def large_inputs():
    """Inputs as large as an input may be, one byte larger, and one that fills the journal."""
    yield Case("line-feeds-at-the-limit", b"\n" * INPUT_LIMIT)
    yield Case("line-feeds-past-the-limit", b"\n" * (INPUT_LIMIT + 1), status=9)
    yield Case("check-past-the-limit", b"\n" * (INPUT_LIMIT + 1), status=9, words=("check",))
    yield Case("journal-at-the-limit", *full_journal())


def full_journal():
    """A range is locked down and set free until the journal has 999,998 entries: another two might have to be undone.
    A command that asks for nothing is carried out even then."""
    lines = [b"lockdown add 0-9", b"lockdown remove 0-9"] * 249_998
    said = [b"%d: done" % number for number in range(1, len(lines) + 1)]
    lines += [b"lockdown add 0-9", b"default clear", b"lockdown remove 0-9", b"packet 5 0x0 8.8.8.8"]
    said += [b"499997: refused ENOSPC", b"499998: done", b"499999: refused ENOENT", b"500000: mark 0x0 unreachable"]
    said += [b"  0 lookup 255", b"  17000 lookup 97", b"  32000 unreachable"]
    return b"\n".join(lines) + b"\n", b"\n".join(said) + b"\n"
