"""What `netd_run` has to print, said a second time.

This is a model of the program in another language, written from docs/script.md, docs/policy.md and docs/rule-table.md. It makes
whole rule tables and compares them, walks rules one by one, and knows nothing of how the program finds its answers.
"""

import ipaddress
import re

CODES = "EINVAL EEXIST ENONET ENODEV ENOENT EBUSY EPERM EACCES ENOSPC ESRCH".split()
PERMISSIONS = {"none": 0, "network": 1, "system": 3}
LOCAL = 99
LOOPBACK_TABLE = 255
LOCAL_TABLE = 97
LAST_UID = 4294967294
JOURNAL_LIMIT = 1_000_000
RULE_LIMIT = 40_000
INPUT_LIMIT = 16_777_216


class Refused(Exception):
    """A refusal by the policy, with its code."""

    def __init__(self, code):
        super().__init__(code)
        self.code = code


# ---------------------------------------------------------------- words

NAME = re.compile(rb"[A-Za-z0-9_.-]{1,15}\Z")


def read_number(word, most):
    """A decimal number without leading zeros, at most `most`."""
    if re.fullmatch(rb"0|[1-9][0-9]*", word) and len(word) <= 20 and int(word) <= most:
        return int(word)
    return None


def read_addr(word):
    text = word.decode("ascii", "replace")
    if re.fullmatch(r"(0|[1-9][0-9]{0,2})(\.(0|[1-9][0-9]{0,2})){3}", text):
        if all(int(part) <= 255 for part in text.split(".")):
            return ipaddress.IPv4Address(text)
        return None
    if not re.fullmatch(r"[0-9A-Fa-f:]+", text):
        return None
    halves = text.split("::")
    if len(halves) > 2:
        return None
    groups = [half.split(":") if half else [] for half in halves]
    if any(not re.fullmatch(r"[0-9A-Fa-f]{1,4}", group) for half in groups for group in half):
        return None
    count = sum(map(len, groups))
    if len(halves) == 1 and count != 8 or len(halves) == 2 and count > 7:
        return None
    if len(halves) == 2:
        groups[0] += ["0"] * (8 - count)
    return ipaddress.IPv6Address(int("".join(g.zfill(4) for half in groups for g in half), 16))


def read_prefix(word):
    base, slash, length = word.partition(b"/")
    addr = read_addr(base)
    if not slash or addr is None:
        return None
    bits = read_number(length, addr.max_prefixlen)
    if bits is None or int(addr) & ((1 << addr.max_prefixlen - bits) - 1):
        return None
    return Prefix(addr, bits)


def read_range(word):
    first, dash, last = word.partition(b"-")
    low, high = read_number(first, LAST_UID), read_number(last, LAST_UID)
    if not dash or low is None or high is None or low > high:
        return None
    return (low, high)


def read_ranges(word):
    ranges = [read_range(part) for part in word.split(b",")]
    return None if None in ranges else ranges


def read_mark(word):
    if re.fullmatch(rb"0x(0|[1-9a-f][0-9a-f]{0,7})", word):
        return int(word, 16)
    return None


def read_index(word):
    index = read_number(word, 65535)
    return index if index is not None and index >= 2 else None


VALUES = {
    "NAME": lambda w: w.decode() if NAME.match(w) else None,
    "INDEX": read_index,
    "NET": lambda w: read_number(w, 65535),
    "UID": lambda w: read_number(w, LAST_UID),
    "RANGE": read_range,
    "RANGES": read_ranges,
    "RANK": lambda w: read_number(w, 99),
    "PERM": lambda w: PERMISSIONS.get(w.decode("ascii", "replace")),
    "PREFIX": read_prefix,
    "ADDR": read_addr,
    "MARK": read_mark,
    "TABLE": lambda w: read_number(w, 4294967295),
}

FORMS = [
    form.split()
    for form in """
link add NAME INDEX
link remove NAME
network create NET physical PERM
network create NET virtual secure
network create NET virtual bypassable
network destroy NET
interface add NET NAME
interface remove NET NAME
route add NET NAME PREFIX
route add NET NAME PREFIX via ADDR
route add NET NAME PREFIX unreachable
route add NET NAME PREFIX throw
route remove NET NAME PREFIX
route remove NET NAME PREFIX special
users add NET RANGES
users add NET rank RANK RANGES
users remove NET RANGES
app add NET RANK RANGES
app remove NET RANGES
default set NET
default clear
permission network NET PERM
permission user UID PERM
permission clear UID
protect allow UID
protect deny UID
lockdown add RANGE
lockdown remove RANGE
tether add NAME NAME
tether remove NAME NAME
socket open NAME UID
socket close NAME
socket bind NAME NAME
socket unbind NAME
socket connect NAME
socket accept NAME UID NAME
socket select NAME NET
socket protect NAME
socket selectfor NAME UID
access UID NET
trace NAME ADDR
packet UID MARK ADDR
packet UID MARK ADDR on NAME
passed NAME ADDR
watch NAME ADDR
watch off
show rules 4
show rules 6
show table TABLE
show networks
show sockets
""".strip().splitlines()
]


def value_of(kind, word):
    """The value of a word where a form has this kind, or None; a literal word's value is the word."""
    if kind in VALUES:
        return VALUES[kind](word)
    return kind if word == kind.encode() else None


class BadLine(Exception):
    def __init__(self, column):
        super().__init__(column)
        self.column = column


def read_line(text):
    """The form and the values of a line; (None, []) for a blank line or a comment."""
    if len(text) > 512:
        raise BadLine(513)
    for place, byte in enumerate(text):
        if not 0x20 <= byte <= 0x7E:
            raise BadLine(place + 1)
    words = [(m.start() + 1, m.group()) for m in re.finditer(rb"[^ ]+", text)]
    if not words or words[0][1].startswith(b"#"):
        return None, []
    alive = FORMS
    for place, (column, word) in enumerate(words):
        alive = [f for f in alive if len(f) > place and value_of(f[place], word) is not None]
        if not alive:
            raise BadLine(column)
    whole = [f for f in alive if len(f) == len(words)]
    if not whole:
        raise BadLine(len(text) + 1)
    form = whole[0]
    values = [value_of(kind, word) for kind, (_, word) in zip(form, words)]
    return form, [v for kind, v in zip(form, values) if kind in VALUES]


# ---------------------------------------------------------------- routes and rules


class Prefix:
    def __init__(self, base, length):
        self.base, self.length = base, length

    def covers(self, addr):
        shift = self.base.max_prefixlen - self.length
        return addr.version == self.base.version and int(addr) >> shift == int(self.base) >> shift

    def key(self):
        return (self.base.version, int(self.base), self.length)

    def __str__(self):
        return f"{self.base}/{self.length}"


class Route:
    """`link` is None for a special route, whose `special` is 'unreachable' or 'throw'."""

    def __init__(self, prefix, link=None, gateway=None, special=None):
        self.prefix, self.link, self.gateway, self.special = prefix, link, gateway, special

    def key(self):
        return self.prefix.key() + (self.link,)

    def same(self):
        return self.key() + (str(self.gateway), self.special)


def best_route(routes, dest, bound):
    best = None
    for route in routes:
        fits = route.prefix.covers(dest) and (bound is None or route.special or route.link == bound)
        if fits and (best is None or route.prefix.length > best.prefix.length):
            best = route
    return best


def answer(routes, dest, bound):
    best = best_route(routes, dest, bound)
    if best is None or best.special == "throw":
        return None
    return ("unreachable",) if best.special else ("out", best.link, best.gateway)


class Rule:
    FIELDS = "priority mark mask incoming outgoing uids action"

    def __init__(self, priority, mark, mask, incoming, outgoing, uids, action):
        self.priority, self.mark, self.mask = priority, mark, mask
        self.incoming, self.outgoing, self.uids, self.action = incoming, outgoing, uids, action

    def same(self):
        return tuple(getattr(self, field) for field in self.FIELDS.split())

    def matches(self, packet):
        return (
            packet.mark & self.mask == self.mark
            and self.incoming in (None, packet.incoming)
            and self.outgoing in (None, packet.outgoing)
            and (self.uids is None or self.uids[0] <= packet.uid <= self.uids[1])
        )


class Packet:
    def __init__(self, uid, mark, dest, incoming, outgoing):
        self.uid, self.mark, self.dest = uid, mark, dest
        self.incoming, self.outgoing = incoming, outgoing

    @property
    def made(self):
        return self.incoming == 1


def made(uid, mark, dest, bound):
    return Packet(uid, mark, dest, 1, bound)


def passed(came, dest):
    return Packet(0, 0, dest, came, None)


# ---------------------------------------------------------------- the state


class Network:
    """`kind` is 'local', 'physical', 'secure' or 'bypassable'; `ranges` are apps or users with ranks."""

    def __init__(self, net, kind, permission=0):
        self.id, self.kind, self.permission = net, kind, permission
        self.interfaces, self.routes, self.ranges = [], [], []

    @property
    def virtual(self):
        return self.kind in ("secure", "bypassable")

    @property
    def physical(self):
        return self.kind == "physical"

    def copy(self):
        new = Network(self.id, self.kind, self.permission)
        new.interfaces, new.routes = list(self.interfaces), list(self.routes)
        new.ranges = list(self.ranges)
        return new

    def rank_of(self, uid):
        for (first, last), rank in self.ranges:
            if first <= uid <= last:
                return rank
        return None

    def routes_by(self, link):
        return [route for owner, route in self.routes if owner == link]

    def table(self, link):
        return LOCAL_TABLE if self.kind == "local" else 1000 + link

    def table_routes(self, link):
        return [r for _, r in self.routes] if self.kind == "local" else self.routes_by(link)


def meet(one, other):
    return one[0] <= other[1] and other[0] <= one[1]


def any_meet(ranges, others):
    return any(meet(r, q) for r in ranges for q in others)


def self_meets(ranges):
    return any(meet(r, q) for i, r in enumerate(ranges) for q in ranges[i + 1 :])


class State:
    def __init__(self):
        self.links = [("lo", 1)]
        self.networks = [Network(LOCAL, "local")]
        self.permissions, self.protectable, self.lockdown, self.pairs = [], [], [], []
        self.default = None

    def copy(self):
        new = State()
        new.links = list(self.links)
        new.networks = [network.copy() for network in self.networks]
        new.permissions, new.protectable = list(self.permissions), list(self.protectable)
        new.lockdown, new.pairs, new.default = list(self.lockdown), list(self.pairs), self.default
        return new

    def link_named(self, name):
        return next((index for other, index in self.links if other == name), None)

    def name_of(self, index):
        return next((name for name, other in self.links if other == index), f"#{index}")

    def get(self, net):
        return next((n for n in self.networks if n.id == net), None)

    def network_of(self, link):
        return next((n for n in self.networks if link in n.interfaces), None)

    def permission_of(self, uid):
        stored = next((p for user, p in self.permissions if user == uid), None)
        return stored if stored is not None else 3 if uid < 10000 else 0

    def may_protect(self, uid):
        return self.permission_of(uid) == 3 or uid in self.protectable

    def holders(self, kinds, uid):
        found = [n for n in self.networks if n.kind in kinds and n.rank_of(uid) is not None]
        return sorted(found, key=lambda n: n.rank_of(uid))

    def vpn_of(self, uid):
        return next(iter(self.holders(("secure", "bypassable"), uid)), None)

    def app_net(self, uid):
        free = [n for n in self.holders(("physical",), uid) if n.permission == 0]
        return free[0].id if free else self.default or 0


def require(holds, code):
    if not holds:
        raise Refused(code)


# ---------------------------------------------------------------- commands


def step(old, form, v):
    """The state after a control line; raises Refused."""
    s = old.copy()
    STEPS[" ".join(w for w in form if w not in VALUES)](s, v)
    require(len(rule_table(s)) <= RULE_LIMIT, "ENOSPC")
    return s


def link_add(s, v):
    name, index = v
    require(all(name != n and index != i for n, i in s.links), "EEXIST")
    require(len(s.links) < 4096, "ENOSPC")
    s.links.append((name, index))


def link_remove(s, v):
    link = s.link_named(v[0])
    require(link is not None, "ENODEV")
    require(link != 1, "EINVAL")
    require(s.network_of(link) is None and all(link not in pair for pair in s.pairs), "EBUSY")
    s.links.remove((v[0], link))


def create(kind):
    def act(s, v):
        require(v[0] >= 100, "EINVAL")
        require(s.get(v[0]) is None, "EEXIST")
        require(len(s.networks) < 1000, "ENOSPC")
        s.networks.append(Network(v[0], kind, v[1] if kind == "physical" else 0))

    return act


def destroy(s, v):
    require(v[0] != LOCAL, "EINVAL")
    network = known(s, v[0])
    s.networks.remove(network)
    s.pairs = [pair for pair in s.pairs if pair[1] not in network.interfaces]
    if s.default == network.id:
        s.default = None


def known(s, net):
    network = s.get(net)
    require(network is not None, "ENONET")
    return network


def interface_add(s, v):
    network = known(s, v[0])
    require(v[1] != "lo", "EINVAL")
    link = s.link_named(v[1])
    require(link is not None, "ENODEV")
    if link in network.interfaces:
        return
    require(s.network_of(link) is None, "EBUSY")
    require(len(network.interfaces) < 8, "ENOSPC")
    network.interfaces.append(link)


def interface_remove(s, v):
    network = known(s, v[0])
    link = s.link_named(v[1])
    if link is None or link not in network.interfaces:
        return
    network.interfaces.remove(link)
    network.routes = [(owner, r) for owner, r in network.routes if owner != link]
    s.pairs = [pair for pair in s.pairs if pair[1] != link]


def route_place(s, v):
    network = known(s, v[0])
    link = s.link_named(v[1])
    require(link is not None and s.network_of(link) is not None, "ENODEV")
    require(link in network.interfaces, "ENOENT")
    return network, link


def route_add(special=None, via=False):
    def act(s, v):
        network, link = route_place(s, v)
        prefix = v[2]
        gateway = v[3] if via else None
        require(not (special and network.kind == "local"), "EINVAL")
        require(gateway is None or gateway.version == prefix.base.version, "EINVAL")
        route = Route(prefix, None if special else link, gateway, special)
        table = network.table_routes(link)
        require(all(r.key() != route.key() for r in network.routes_by(link)), "EEXIST")
        require(len(table) < 16384, "ENOSPC")
        network.routes.append((link, route))

    return act


def route_remove(special):
    def act(s, v):
        network, link = route_place(s, v)
        key = Route(v[2], None if special else link).key()
        gone = [(o, r) for o, r in network.routes if o == link and r.key() == key]
        require(gone, "ESRCH")
        network.routes.remove(gone[0])

    return act


def ranges_add(test, ranked):
    def act(s, v):
        network = known(s, v[0])
        rank, ranges = (v[1], v[2]) if ranked else (0, v[1])
        require(test(network) and not self_meets(ranges), "EINVAL")
        require(not any_meet([r for r, _ in network.ranges], ranges), "EEXIST")
        at_rank = [r for n in s.networks if test(n) for r, other in n.ranges if other == rank]
        require(not any_meet(at_rank, ranges), "EEXIST")
        require(len(network.ranges) + len(ranges) <= 1000, "ENOSPC")
        network.ranges += [(r, rank) for r in ranges]

    return act


def ranges_remove(test):
    def act(s, v):
        network = known(s, v[0])
        require(test(network) and not self_meets(v[1]), "EINVAL")
        require(all(r in [q for q, _ in network.ranges] for r in v[1]), "ENOENT")
        network.ranges = [(r, rank) for r, rank in network.ranges if r not in v[1]]

    return act


def default_set(s, v):
    require(known(s, v[0]).physical, "EINVAL")
    s.default = v[0]


def default_clear(s, v):
    s.default = None


def permission_network(s, v):
    network = known(s, v[0])
    require(network.physical, "EINVAL")
    network.permission = v[1]


def permission_user(s, v):
    if any(user == v[0] for user, _ in s.permissions):
        s.permissions = [(user, v[1] if user == v[0] else p) for user, p in s.permissions]
        return
    require(len(s.permissions) < 10000, "ENOSPC")
    s.permissions.append((v[0], v[1]))


def permission_clear(s, v):
    s.permissions = [(user, p) for user, p in s.permissions if user != v[0]]


def protect_allow(s, v):
    if v[0] not in s.protectable:
        require(len(s.protectable) < 10000, "ENOSPC")
        s.protectable.append(v[0])


def protect_deny(s, v):
    s.protectable = [user for user in s.protectable if user != v[0]]


def lockdown_add(s, v):
    require(not any_meet(s.lockdown, [v[0]]), "EEXIST")
    require(len(s.lockdown) < 1000, "ENOSPC")
    s.lockdown.append(v[0])


def lockdown_remove(s, v):
    require(v[0] in s.lockdown, "ENOENT")
    s.lockdown.remove(v[0])


def tether_add(s, v):
    came, out = s.link_named(v[0]), s.link_named(v[1])
    require(came is not None, "ENODEV")
    require(out is not None and s.network_of(out) is not None, "ENODEV")
    local = s.network_of(out).kind == "local"
    require(came != out and came != 1 and not local, "EINVAL")
    require((came, out) not in s.pairs, "EEXIST")
    require(len(s.pairs) < 1000, "ENOSPC")
    s.pairs.append((came, out))


def tether_remove(s, v):
    pair = (s.link_named(v[0]), s.link_named(v[1]))
    require(pair in s.pairs, "ENOENT")
    s.pairs.remove(pair)


IS_VIRTUAL = lambda n: n.virtual
IS_PHYSICAL = lambda n: n.physical

STEPS = {
    "link add": link_add,
    "link remove": link_remove,
    "network create physical": create("physical"),
    "network create virtual secure": create("secure"),
    "network create virtual bypassable": create("bypassable"),
    "network destroy": destroy,
    "interface add": interface_add,
    "interface remove": interface_remove,
    "route add": route_add(),
    "route add via": route_add(via=True),
    "route add unreachable": route_add(special="unreachable"),
    "route add throw": route_add(special="throw"),
    "route remove": route_remove(False),
    "route remove special": route_remove(True),
    "users add": ranges_add(IS_VIRTUAL, False),
    "users add rank": ranges_add(IS_VIRTUAL, True),
    "users remove": ranges_remove(IS_VIRTUAL),
    "app add": ranges_add(IS_PHYSICAL, True),
    "app remove": ranges_remove(IS_PHYSICAL),
    "default set": default_set,
    "default clear": default_clear,
    "permission network": permission_network,
    "permission user": permission_user,
    "permission clear": permission_clear,
    "protect allow": protect_allow,
    "protect deny": protect_deny,
    "lockdown add": lockdown_add,
    "lockdown remove": lockdown_remove,
    "tether add": tether_add,
    "tether remove": tether_remove,
}

# ---------------------------------------------------------------- the rule table


def rule_table(s):
    rules = []

    def row(priority, mark, mask, incoming, outgoing, uids, action):
        rules.append(Rule(priority, mark, mask, incoming, outgoing, uids, action))

    def table(link):
        return ("lookup", 1000 + link)

    physical = [n for n in s.networks if n.physical]
    virtual = [n for n in s.networks if n.virtual]
    local = s.networks[0]
    default = s.get(s.default) if s.default is not None else None
    to_local = ("lookup", LOCAL_TABLE)

    def links(networks):
        return [(n, i) for n in networks for i in n.interfaces]

    for n, i in links(physical):
        p = n.permission << 18
        row(10500, p, p, 1, i, (0, 0), table(i))
    for i in local.interfaces:
        row(10500, 0, 0, 1, i, (0, 0), to_local)
    for n, t in links(virtual):
        row(11000, 0, 0, t, None, None, to_local)
    for n, t in links(virtual):
        if n.kind == "secure":
            row(11900, n.id + 0xC0000, 0xCFFFF, None, None, None, table(t))
    for n, t in links(virtual):
        if n.kind == "secure":
            for r, rank in n.ranges:
                row(12000 + rank, 0, 0x20000, 1, None, r, table(t))
    for r in s.lockdown:
        row(12500, 0, 0x20000, 1, None, r, ("prohibit",))
    for n, i in links(physical):
        p = n.permission << 18
        row(13000, n.id + 0x10000 + p, 0x1FFFF + p, 1, None, None, table(i))
    row(13000, 0x10063, 0x1FFFF, 1, None, None, to_local)
    for n, t in links(virtual):
        for r, _ in n.ranges:
            row(13000, n.id + 0x10000, 0x1FFFF, 1, None, r, table(t))
    for n, t in links(virtual):
        row(13100, n.id + 0xD0000, 0xDFFFF, 1, None, (0, 0), table(t))
    for n, i in links(physical):
        p = n.permission << 18
        row(14000, p, p, 1, i, None, table(i))
    for i in local.interfaces:
        row(14000, 0, 0, 1, i, None, to_local)
    for n, t in links(virtual):
        for r, _ in n.ranges:
            row(14000, 0, 0, 1, t, r, table(t))
    row(17000, 0, 0x10000, None, None, None, to_local)
    for came, out in s.pairs:
        row(18000, 0, 0, came, None, None, table(out))
    for n, i in links(physical):
        if n.permission == 0:
            row(19000, n.id, 0x1FFFF, 1, None, None, table(i))
    for n, t in links(virtual):
        if n.kind == "bypassable":
            row(19900, n.id + 0xC0000, 0xCFFFF, None, None, None, table(t))
    for n, t in links(virtual):
        if n.kind == "bypassable":
            for r, rank in n.ranges:
                row(20000 + rank, 0, 0x30000, 1, None, r, table(t))
    if default:
        p = default.permission << 18
        for n in virtual:
            for i in default.interfaces:
                row(21000, n.id + p, 0x1FFFF + p, None, None, None, table(i))
    for n, i in links(physical):
        p = n.permission << 18
        for r, rank in n.ranges:
            row(21500 + rank, p, 0xFFFF + p, 1, None, r, table(i))
    if default:
        p = default.permission << 18
        for i in default.interfaces:
            row(22000, p, 0xFFFF + p, 1, None, None, table(i))
    row(32000, 0, 0, None, None, None, ("unreachable",))
    return sorted(rules, key=lambda r: r.priority)


# ---------------------------------------------------------------- requests


def shortest_first(network, link):
    routes = sorted(network.routes_by(link), key=lambda r: r.prefix.length)
    return [("route", network.table(link), r) for r in routes]


def asked(old, new, form, v):
    """The additions and the deletions of an accepted command."""
    words = " ".join(w for w in form if w not in VALUES)
    if words.startswith("route"):
        network, link = old.get(v[0]), old.link_named(v[1])
        have = {id(r) for _, r in old.get(v[0]).routes}
        kept = {id(r) for _, r in new.get(v[0]).routes}
        came = [("route", network.table(link), r) for _, r in new.get(v[0]).routes if id(r) not in have]
        gone = [("route", network.table(link), r) for _, r in network.routes if id(r) not in kept]
        return came, gone
    before, after = rule_table(old), rule_table(new)
    had, has = {r.same() for r in before}, {r.same() for r in after}
    adds = [("rule", f, r) for r in after if r.same() not in had for f in (4, 6)]
    deletes = [("rule", f, r) for r in reversed(before) if r.same() not in has for f in (6, 4)]
    leaving = []
    for network in old.networks:
        still = new.get(network.id)
        for link in network.interfaces:
            if still is None or link not in still.interfaces:
                leaving.append((network, link))
    routes = [request for network, link in leaving for request in shortest_first(network, link)]
    if leaving and leaving[0][0].kind == "local":
        return adds, routes + deletes
    return adds, deletes + routes


# ---------------------------------------------------------------- the kernel


class Halted(Exception):
    def __init__(self, request):
        super().__init__(request)
        self.request = request


class KernelRefused(Exception):
    def __init__(self, request):
        super().__init__(request)
        self.request = request


class Kernel:
    def __init__(self, refuse, breaks):
        self.refuse, self.breaks = set(refuse), set(breaks)
        self.additions = self.deletions = self.entries = 0
        own = Rule(0, 0, 0, None, None, None, ("lookup", LOOPBACK_TABLE))
        self.rules = {4: [own], 6: [own]}
        loopback = [Route(read_prefix(b"127.0.0.0/8"), 1), Route(read_prefix(b"::1/128"), 1)]
        self.tables = {LOOPBACK_TABLE: loopback}

    def add(self, request):
        self.entries += 1
        self.additions += 1
        if self.additions in self.refuse:
            raise KernelRefused(self.entries)
        if request[0] == "rule":
            rules, rule = self.rules[request[1]], request[2]
            assert all(r.same() != rule.same() for r in rules), "added what is there"
            place = sum(1 for r in rules if r.priority <= rule.priority)
            rules.insert(place, rule)
        else:
            table = self.tables.setdefault(request[1], [])
            assert all(r.key() != request[2].key() for r in table), "added a key that is there"
            table.append(request[2])

    def delete(self, request):
        self.entries += 1
        self.deletions += 1
        if self.deletions in self.breaks:
            raise Halted(self.entries)
        entries = self.rules[request[1]] if request[0] == "rule" else self.tables[request[1]]
        place = next(i for i, e in enumerate(entries) if e.same() == request[2].same())
        del entries[place]

    def trail(self, packet):
        """The rules that the packet matches up to the deciding one, and the verdict."""
        steps = []
        for rule in self.rules[packet.dest.version]:
            if not rule.matches(packet):
                continue
            steps.append(rule)
            if rule.action[0] == "prohibit":
                return steps, ("prohibited",)
            if rule.action[0] == "unreachable":
                return steps, ("unreachable",)
            found = answer(self.tables.get(rule.action[1], []), packet.dest, packet.outgoing)
            if found is not None:
                local = rule.action[1] == LOOPBACK_TABLE and found[0] == "out"
                return steps, ("loopback",) if local else found
        return steps, ("unreachable",)


# ---------------------------------------------------------------- the policy


def suffices(have, need):
    return have & need == need


def asks_link(network, link, packet):
    return answer(network.routes_by(link), packet.dest, packet.outgoing)


def asks(network, packet):
    if network.kind == "local":
        return answer([r for _, r in network.routes], packet.dest, packet.outgoing)
    for link in network.interfaces:
        found = asks_link(network, link, packet)
        if found is not None:
            return found
    return None


def is_loopback(dest):
    return int(dest) >> 24 == 127 if dest.version == 4 else int(dest) == 1


def policy(s, packet):
    if packet.made:
        return policy_made(s, packet)
    if is_loopback(packet.dest):
        return ("loopback",)
    answers = [asks(s.networks[0], packet)]
    answers += [asks_link(s.network_of(o), o, packet) for c, o in s.pairs if c == packet.incoming]
    return next((a for a in answers if a is not None), ("unreachable",))


def policy_made(s, packet):
    mark, uid = packet.mark, packet.uid
    explicit, guarded = mark >> 16 & 1, mark >> 17 & 1
    have, net = mark >> 18 & 3, mark & 0xFFFF
    named = s.get(net)
    bound = s.network_of(packet.outgoing) if packet.outgoing is not None else None

    def may_reach(network):
        return network.kind == "local" or network.physical and suffices(have, network.permission)

    if is_loopback(packet.dest) and packet.outgoing in (None, 1):
        return ("loopback",)
    if uid == 0 and bound is not None and may_reach(bound):
        found = asks_link(bound, packet.outgoing, packet)
        if found is not None:
            return found
    held = []
    if named is not None and named.kind == "secure" and have == 3:
        held.append(named)
    if not guarded:
        held += s.holders(("secure",), uid)
    for network in held:
        found = asks(network, packet)
        if found is not None:
            return found
    if not guarded and any(first <= uid <= last for first, last in s.lockdown):
        return ("prohibited",)
    if explicit and named is not None:
        holds = named.virtual and named.rank_of(uid) is not None
        root = named.virtual and uid == 0 and have == 3
        if may_reach(named) or holds or root:
            found = asks(named, packet)
            if found is not None:
                return found
    if bound is not None and (may_reach(bound) or bound.virtual and bound.rank_of(uid) is not None):
        found = asks_link(bound, packet.outgoing, packet)
        if found is not None:
            return found
    rest = []
    if not explicit:
        rest.append(s.networks[0])
        if named is not None and named.physical and named.permission == 0:
            rest.append(named)
    if named is not None and named.kind == "bypassable" and have == 3:
        rest.append(named)
    if not guarded and not explicit:
        rest += s.holders(("bypassable",), uid)
    if net == 0:
        rest += [n for n in s.holders(("physical",), uid) if suffices(have, n.permission)]
    default = s.get(s.default) if s.default is not None else None
    by_vpn = named is not None and named.virtual and not explicit
    if default is not None and suffices(have, default.permission) and (net == 0 or by_vpn):
        rest.append(default)
    for network in rest:
        found = asks(network, packet)
        if found is not None:
            return found
    return ("unreachable",)


# ---------------------------------------------------------------- sockets


class Socket:
    def __init__(self, uid, mark=0):
        self.uid, self.mark, self.bound = uid, mark, None

    def put(self, net=None, explicit=None, guarded=None, permission=None):
        """Replaces the fields that are given; all other bits stay."""
        for value, shift, bits in (
            (net, 0, 0xFFFF),
            (explicit, 16, 1),
            (guarded, 17, 1),
            (permission, 18, 3),
        ):
            if value is not None:
                self.mark = self.mark & ~(bits << shift) | value << shift

    def joined(self, permission):
        return self.mark >> 18 & 3 | permission


def access(s, uid, net):
    network = known(s, net)
    if s.permission_of(uid) == 3:
        return
    if network.virtual:
        require(network.rank_of(uid) is not None, "EPERM")
        return
    require(not s.holders(("secure",), uid) or uid in s.protectable, "EPERM")
    require(suffices(s.permission_of(uid), network.permission), "EACCES")


def socket_line(s, sockets, words, v):
    """Acts on the sockets; answers the socket whose mark is printed, or None."""
    if words == "access":
        access(s, v[0], v[1])
        return None
    verb = words.split()[1]
    if verb in ("open", "accept"):
        require(v[0] not in sockets, "EEXIST")
        if verb == "accept":
            link = s.link_named(v[2])
            network = s.network_of(link) if link is not None else None
            require(network is not None, "ENODEV")
        require(len(sockets) < 10000, "ENOSPC")
        socket = Socket(v[1])
        if verb == "accept":
            permission = network.permission | s.permission_of(v[1])
            socket.put(network.id, 1, 1, permission)
        sockets[v[0]] = socket
        return socket
    require(v[0] in sockets, "ENOENT")
    socket = sockets[v[0]]
    if verb == "close":
        del sockets[v[0]]
        return None
    mine = s.permission_of(socket.uid)
    named = s.get(socket.mark & 0xFFFF)
    explicit = socket.mark >> 16 & 1
    if verb == "bind":
        link = s.link_named(v[1])
        require(link is not None, "ENODEV")
        socket.bound = link
    elif verb == "unbind":
        socket.bound = None
    elif verb == "connect":
        if not explicit:
            guarded = socket.mark >> 17 & 1
            vpn = s.holders(("bypassable",), socket.uid)
            if not guarded:
                socket.put(net=vpn[0].id if vpn else s.app_net(socket.uid))
            elif named is None or not named.virtual:
                socket.put(net=s.app_net(socket.uid))
        socket.put(permission=mine)
    elif verb == "select":
        if v[1] == 0:
            socket.put(0, 0, 0, 0)
        else:
            access(s, socket.uid, v[1])
            socket.put(v[1], 1, int(s.may_protect(socket.uid)), mine)
    elif verb == "protect":
        require(s.may_protect(socket.uid), "EPERM")
        if not explicit and named is not None and named.virtual:
            socket.put(net=s.app_net(socket.uid))
        socket.put(guarded=1, permission=socket.joined(mine))
    else:
        require(mine == 3, "EPERM")
        vpn = s.vpn_of(v[1])
        socket.put(vpn.id if vpn else s.app_net(v[1]), None, 1, mine)
    return socket


# ---------------------------------------------------------------- texts


def verdict_text(s, verdict):
    if verdict[0] != "out":
        return verdict[0]
    via = f" via {addr_text(verdict[2])}" if verdict[2] is not None else ""
    return f"out {s.name_of(verdict[1])}{via}"


def addr_text(addr):
    """RFC 5952 text; Python shows addresses that embed IPv4 in other ways in some versions."""
    if addr.version == 4:
        return str(addr)
    groups = [int(addr) >> shift & 0xFFFF for shift in range(112, -1, -16)]
    best, length, place = 0, 0, 0
    while place < 8:
        end = place
        while end < 8 and groups[end] == 0:
            end += 1
        if end - place > length:
            best, length = place, end - place
        place = max(end, place + 1)
    if length < 2:
        return ":".join(f"{g:x}" for g in groups)
    front = ":".join(f"{g:x}" for g in groups[:best])
    return front + "::" + ":".join(f"{g:x}" for g in groups[best + length :])


def prefix_text(prefix):
    return f"{addr_text(prefix.base)}/{prefix.length}"


def action_text(action):
    return f"lookup {action[1]}" if action[0] == "lookup" else action[0]


def trail_text(steps):
    return "".join(f"  {r.priority} {action_text(r.action)}\n" for r in steps)


def rule_text(s, rule):
    parts = [f"{rule.priority}: from all"]
    if rule.mask:
        parts.append(f"fwmark {rule.mark:#x}/{rule.mask:#x}")
    if rule.incoming is not None:
        parts.append(f"iif {s.name_of(rule.incoming)}")
    if rule.outgoing is not None:
        parts.append(f"oif {s.name_of(rule.outgoing)}")
    if rule.uids is not None:
        parts.append(f"uidrange {rule.uids[0]}-{rule.uids[1]}")
    return " ".join(parts + [action_text(rule.action)])


def route_text(s, route):
    if route.special:
        return f"{route.special} {prefix_text(route.prefix)}"
    via = f" via {addr_text(route.gateway)}" if route.gateway is not None else ""
    return f"{prefix_text(route.prefix)}{via} dev {s.name_of(route.link)}"


def joined(texts):
    return ",".join(texts) or "-"


def network_text(s, n):
    permission = next(word for word, p in PERMISSIONS.items() if p == n.permission)
    ranges = [f"{a}-{b}" + (f"@{rank}" if rank else "") for (a, b), rank in n.ranges]
    links = " interfaces " + joined([s.name_of(link) for link in n.interfaces])
    if n.kind == "local":
        return f"{n.id} local{links}"
    if n.virtual:
        return f"{n.id} virtual {n.kind} users {joined(ranges)}{links}"
    default = " default" if s.default == n.id else ""
    apps = f" apps {joined(ranges)}" if ranges else ""
    return f"{n.id} physical {permission}{default}{apps}{links}"


# ---------------------------------------------------------------- the session


class Session:
    def __init__(self, refuse=(), breaks=(), checks_policy=True):
        self.state, self.sockets, self.watch = State(), {}, None
        self.kernel = Kernel(refuse, breaks)
        self.out, self.status = [], None
        self.checks_policy = checks_policy

    def say(self, number, text):
        self.out.append(f"{number}: {text}\n")

    def start(self):
        start = rule_table(self.state)
        adds = [("rule", f, r) for r in start for f in (4, 6)]
        try:
            self.carry(adds, [], lambda: None)
        except KernelRefused as fault:
            self.out.append(f"start: refused at request {fault.request}\n")
            self.status = 8
        except Halted as fault:
            self.out.append(f"start: halted at request {fault.request}\n")
            self.status = 7

    def carry(self, adds, deletes, after_request):
        done = []
        try:
            for request in adds:
                self.kernel.add(request)
                done.append(request)
                after_request()
        except KernelRefused:
            for request in reversed(done):
                self.kernel.delete(request)
                after_request()
            raise
        for request in deletes:
            self.kernel.delete(request)
            after_request()

    def packet_of(self, name, dest):
        require(name in self.sockets, "ENOENT")
        socket = self.sockets[name]
        return made(socket.uid, socket.mark, dest, socket.bound)

    def control(self, number, form, v):
        new = step(self.state, form, v)
        adds, deletes = asked(self.state, new, form, v)
        room = self.kernel.entries + 2 * len(adds) + len(deletes)
        require(not (adds or deletes) or room <= JOURNAL_LIMIT, "ENOSPC")
        packet = self.packet_of(*self.watch) if self.watch else None
        last = [self.kernel.trail(packet)[1]] if packet else None

        def after_request():
            if packet is None:
                return
            verdict = self.kernel.trail(packet)[1]
            if self.checks_policy:
                assert verdict in (policy(self.state, packet), policy(new, packet)), "neither policy"
            if verdict != last[0]:
                last[0] = verdict
                text = verdict_text(self.state, verdict)
                self.say(number, f"request {self.kernel.entries} {text}")

        try:
            self.carry(adds, deletes, after_request)
        except KernelRefused as fault:
            self.say(number, f"kernel refused request {fault.request}")
            return
        except Halted as fault:
            self.say(number, f"halted at request {fault.request}")
            self.status = 7
            return
        self.state = new
        self.say(number, "done")

    def went(self, number, packet, mark, trail=True):
        steps, verdict = self.kernel.trail(packet)
        if self.checks_policy:
            assert verdict == policy(self.state, packet), "the rules don't mean the policy"
        front = f"mark {mark:#x} " if mark is not None else ""
        self.say(number, front + verdict_text(self.state, verdict))
        if trail:
            self.out.append(trail_text(steps))

    def question(self, number, words, v):
        if words == "trace":
            packet = self.packet_of(v[0], v[1])
            self.went(number, packet, packet.mark)
        elif words in ("packet", "packet on"):
            bound = None
            if words == "packet on":
                bound = self.state.link_named(v[3])
                require(bound is not None, "ENODEV")
            self.went(number, made(v[0], v[1], v[2], bound), v[1])
        elif words == "passed":
            require(v[0] != "lo", "EINVAL")
            came = self.state.link_named(v[0])
            require(came is not None, "ENODEV")
            self.went(number, passed(came, v[1]), None)
        elif words == "watch off":
            self.watch = None
            self.say(number, "done")
        else:
            packet = self.packet_of(v[0], v[1])
            self.watch = (v[0], v[1])
            self.went(number, packet, packet.mark, trail=False)

    def show(self, number, form, v):
        s = self.state
        if form[1] == "rules":
            rules = self.kernel.rules[int(form[2])]
            lines = [rule_text(s, r) for r in rules]
            self.report(number, "rules", lines)
        elif form[1] == "table":
            lines = [route_text(s, r) for r in self.kernel.tables.get(v[0], [])]
            self.report(number, "routes", lines)
        elif form[1] == "networks":
            self.report(number, "networks", [network_text(s, n) for n in s.networks])
        else:
            lines = []
            for name, socket in self.sockets.items():
                bound = "-" if socket.bound is None else s.name_of(socket.bound)
                lines.append(f"{name} uid {socket.uid} mark {socket.mark:#x} bound {bound}")
            self.report(number, "sockets", lines)

    def report(self, number, what, lines):
        self.say(number, f"{len(lines)} {what}")
        self.out += [f"  {line}\n" for line in lines]

    def answer(self, number, form, v):
        words = " ".join(w for w in form if w not in VALUES)
        if words in STEPS:
            self.control(number, form, v)
        elif form[0] in ("socket", "access"):
            socket = socket_line(self.state, self.sockets, words, v)
            if words == "socket close" and self.watch and self.watch[0] == v[0]:
                self.watch = None
            self.say(number, "done" if socket is None else f"mark {socket.mark:#x}")
        elif form[0] == "show":
            self.show(number, form, v)
        else:
            self.question(number, words, v)

    def run(self, script):
        self.start()
        lines = script.split(b"\n")
        if lines[-1] == b"":
            lines.pop()
        for number, text in enumerate(lines, 1):
            if self.status is not None:
                break
            try:
                form, values = read_line(text)
                if form is not None:
                    self.answer(number, form, values)
            except BadLine as bad:
                self.say(number, f"bad line at column {bad.column}")
                self.status = 3
            except Refused as refused:
                self.say(number, f"refused {refused.code}")
        return "".join(self.out).encode(), self.status or 0


# ---------------------------------------------------------------- canonical text


def word_text(kind, value):
    if kind not in VALUES:
        return kind
    if kind == "PERM":
        return next(word for word, p in PERMISSIONS.items() if p == value)
    if kind == "RANGE":
        return f"{value[0]}-{value[1]}"
    if kind == "RANGES":
        return ",".join(f"{a}-{b}" for a, b in value)
    if kind == "PREFIX":
        return prefix_text(value)
    if kind == "ADDR":
        return addr_text(value)
    return f"{value:#x}" if kind == "MARK" else str(value)


def canonical(form, values):
    if form[:2] == ["users", "add"] and form[3] == "rank" and values[1] == 0:
        form, values = FORMS[[f[:4] for f in FORMS].index(["users", "add", "NET", "RANGES"])], [
            values[0],
            values[2],
        ]
    rest = iter(values)
    return " ".join(word_text(k, next(rest) if k in VALUES else None) for k in form) + "\n"


def check(script):
    out = []
    lines = script.split(b"\n")
    if lines[-1] == b"":
        lines.pop()
    for number, text in enumerate(lines, 1):
        try:
            form, values = read_line(text)
        except BadLine as bad:
            out.append(f"{number}: bad line at column {bad.column}\n")
            return "".join(out).encode(), 3
        if form is not None:
            out.append(canonical(form, values))
    return "".join(out).encode(), 0
