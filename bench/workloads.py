"""What the workloads of bench/run are: lines that prepare, and lines that are measured, at a small and at the full size."""
import dataclasses
import itertools


@dataclasses.dataclass(frozen=True)
class Workload:
    """At each of two sizes the lines before and the lines measured. `most` is the highest ratio of the times per line that is wanted."""

    name: str
    sizes: tuple
    before: object
    lines: object
    most: float


def networks(count, interfaces, kind="physical none"):
    """So many networks, each with so many interfaces."""
    index = itertools.count(2)
    for net in range(100, 100 + count):
        yield f"network create {net} {kind}"
        for place in range(interfaces):
            yield f"link add n{net}i{place} {next(index)}"
            yield f"interface add {net} n{net}i{place}"


def grow(count):
    """Networks of 8 interfaces with a route each."""
    for line in networks(count, 8):
        yield line
        if line.startswith("interface"):
            yield "route" + line[9:] + " 10.0.0.0/8"


def permissions(count):
    for k in range(400):
        yield f"permission network {100 + k % count} {('network', 'system', 'none')[k // count % 3]}"


def routes_of(count, each):
    """So many routes in each table of networks of one interface."""
    for k in range(each):
        for net in range(100, 100 + count):
            yield f"route add {net} n{net}i0 10.{k // 256}.{k % 256}.0/24"


def one_table(count):
    for k in range(count):
        yield f"route add 100 n100i0 {11 + k // 65536}.{k // 256 % 256}.{k % 256}.0/24"


def routes_in_one_table(count):
    """The default network with so many routes."""
    yield from networks(1, 1)
    yield "default set 100"
    yield from one_table(count)


def all_but_8000(count):
    yield from networks(1, 1)
    yield from itertools.islice(one_table(count), count - 8_000)


def last_8000(count):
    """The last 8,000 of so many routes into one table."""
    return itertools.islice(one_table(count), count - 8_000, None)


def packets_by_routes(count):
    """Packets to addresses all over so many routes, no two near each other in turn."""
    for k in range(60_000):
        place = k * 7_919 % count
        yield f"packet 10050 0x0 {11 + place // 65536}.{place // 256 % 256}.{place % 256}.{k % 256}"


def small_commands(count):
    for group in range(count // 4):
        first = 10_000 + 10 * (group % 1_000)
        yield f"lockdown add {first}-{first + 9}"
        yield f"packet {first} 0x0 8.8.8.8"
        yield f"packet {first + 10} 0x0 2001:db8::1"
        yield f"lockdown remove {first}-{first + 9}"


def full_network(routes):
    """A network of 8 interfaces with so many routes each."""
    yield from networks(1, 8)
    for place in range(8):
        for k in range(routes):
            yield f"route add 100 n100i{place} {11 + k // 65536}.{k // 256 % 256}.{k % 256}.0/24"


def vpns(ranges):
    """Two VPNs of 8 interfaces with so many ranges together: up to 40,000 rules."""
    yield from networks(2, 8, "virtual secure")
    for k in range(ranges):
        first = 100_000 + 10 * k
        yield f"users add {100 + k % 2} {first}-{first + 9}"


def lockdown(ranges):
    for k in range(ranges):
        yield f"lockdown add {100_000 + 10 * k}-{100_000 + 10 * k + 4}"


def packets(count):
    """Packets of users in a range each: of those of a VPN with 8 interfaces, eleven rules match each."""
    for k in range(20_000):
        yield f"packet {100_000 + 10 * (k % max(count, 1))} 0x0 8.8.8.8"


def five_rules_or_vpns(ranges):
    """One range that is locked down, so five rules, or two VPNs with so many ranges."""
    return vpns(ranges) if ranges else lockdown(1)


def packets_of_others(_):
    """Packets of users in no range: three rules match each."""
    for k in range(20_000):
        yield f"packet {5 + k % 50} 0x0 8.8.8.8"


def lockdowns(count):
    for k in range(5_000):
        first = 1_000_000 + 10 * (k % 500)
        yield f"lockdown add {first}-{first}"
        yield f"lockdown remove {first}-{first}"


def sockets(count):
    for k in range(count):
        yield f"socket open s{k} {10_000 + k}"
        yield f"socket connect s{k}"
    for k in range(count):
        yield f"socket close s{k}"


def none(_):
    return ()


WORKLOADS = (
    Workload("small commands", (20_000, 100_000), none, small_commands, 1.3),
    Workload("networks grow", (50, 500), none, grow, 1.5),
    Workload("permissions of networks", (40, 400), lambda n: networks(n, 8), permissions, 1.5),
    Workload("routes into many tables", (40, 400), lambda n: networks(n, 1), lambda n: routes_of(n, 50), 1.5),
    Workload("routes into one table", (1_600, 16_000), lambda n: networks(1, 1), one_table, 1.5),
    Workload("8,000 routes and 8,000 more", (8_000, 16_000), all_but_8000, last_8000, 1.5),
    Workload("a packet by the routes", (10, 16_000), routes_in_one_table, packets_by_routes, 2),
    Workload("a full network is destroyed", (1_600, 16_000), full_network, lambda n: ["network destroy 100"], 12),
    Workload("another's packet by the rules", (0, 1_664), five_rules_or_vpns, packets_of_others, 3),
    Workload("a packet by the rules", (1, 1_664), vpns, packets, 3),
    Workload("a command by the rules", (1, 1_664), vpns, lockdowns, 5),
    Workload("a packet under lockdown", (1, 1_000), lockdown, packets, 1.5),
    Workload("sockets", (1_000, 10_000), none, sockets, 1.5),
)
