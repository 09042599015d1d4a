"""Rows of the limits, and of the order in which a command's reasons to be refused are looked at."""
from case import dialog, done

# The links 'w', 'v' and 'u', of which the first two are interfaces of the networks 100 and 101, and a default route by 'w'.
SMALL = done(
    "link add w 2",
    "link add v 3",
    "link add u 4",
    "network create 100 physical none",
    "network create 101 physical none",
    "interface add 100 w",
    "interface add 101 v",
    "route add 100 w 0.0.0.0/0",
)


def limit_cases():
    yield links_at_the_limit()
    yield networks_at_the_limit()
    yield interfaces_at_the_limit()
    yield routes_at_the_limit()
    yield ranges_at_the_limit()
    yield network_ranges_at_the_limit()
    yield rules_at_the_limit()
    yield pairs_at_the_limit()
    yield users_at_the_limit("permission", "permission user %d system", "permission clear %d")
    yield users_at_the_limit("protect", "protect allow %d", "protect deny %d")
    yield sockets_at_the_limit()
    yield from orders()


def refused(code, *lines):
    return [(line, "refused " + code) for line in lines]


def links_at_the_limit():
    """4,095 links beside 'lo'. What is there is refused as such even then."""
    links = done(*("link add l%d %d" % (index, index) for index in range(2, 4097)))
    full = refused("ENOSPC", "link add more 4097") + refused("EEXIST", "link add l2 4097", "link add more 4096", "link add lo 4097")
    room = done("link remove l2", "link add more 4097") + refused("ENOSPC", "link add again 2")
    return dialog("limit-links", links + full + room)


def networks_at_the_limit():
    """999 networks beside the local one. An id that none may have, or that one has, is refused as such even then."""
    networks = done(*("network create %d physical none" % net for net in range(100, 1099)))
    full = refused("ENOSPC", "network create 1099 physical none")
    full += refused("EEXIST", "network create 100 physical none", "network create 1098 physical system")
    full += refused("EINVAL", "network create 99 physical none", "network create 0 physical none")
    return dialog("limit-networks", networks + full)


def interfaces_at_the_limit():
    """8 interfaces. The order of the reasons is seen at a network that is full."""
    links = done(*("link add l%d %d" % (index, index) for index in range(2, 12)))
    networks = done("network create 100 physical none", "network create 101 physical none")
    interfaces = done(*("interface add 100 l%d" % index for index in range(2, 10)), "interface add 101 l10")
    full = refused("ENONET", "interface add 102 l11", "interface add 102 lo", "interface add 102 x")
    full += refused("EINVAL", "interface add 100 lo") + refused("ENODEV", "interface add 100 x")
    full += done("interface add 100 l2", "interface add 100 l9") + refused("EBUSY", "interface add 100 l10")
    full += refused("ENOSPC", "interface add 100 l11") + done("interface add 101 l11")
    return dialog("limit-interfaces", links + networks + interfaces + full)


def routes_at_the_limit():
    """16,384 routes of a table. The last two reasons are seen at a table that is full; another table is not."""
    built = done("link add w 2", "link add v 3", "network create 100 physical none", "interface add 100 w", "interface add 100 v")
    routes = done(*("route add 100 w 10.0.%d.%d/32" % (place // 256, place % 256) for place in range(16384)))
    full = refused("EINVAL", "route add 100 w 10.0.0.0/32 via ::1", "route add 100 w 11.0.0.0/32 via ::1")
    full += refused("EEXIST", "route add 100 w 10.0.63.255/32", "route add 100 w 10.0.0.0/32 via 192.168.1.1")
    full += refused("ENOSPC", "route add 100 w 11.0.0.0/32", "route add 100 w 10.0.0.0/32 throw", "route add 100 w ::/0")
    full += done("route add 100 v 10.0.0.0/32", "route remove 100 w 10.0.0.0/32", "route add 100 w ::/0")
    return dialog("limit-routes", built + routes + full + refused("ENOSPC", "route add 100 w 10.0.0.0/32"))


def ranges_at_the_limit():
    """1,000 ranges. One that shares a UID with another is refused as such even then."""
    ranges = done(*("lockdown add %d-%d" % (uid, uid) for uid in range(1000)))
    full = refused("ENOSPC", "lockdown add 1000-1000") + refused("EEXIST", "lockdown add 999-1000", "lockdown add 0-4294967294")
    full += refused("ENOENT", "lockdown remove 1000-1000", "lockdown remove 0-1", "lockdown remove 0-999")
    return dialog("limit-ranges", ranges + full + done("lockdown remove 999-999", "lockdown add 999-1000"))


def network_ranges_at_the_limit():
    """1,000 ranges of a network, of whatever ranks. One that shares a UID with another of its rank is refused as such even then."""
    built = done("network create 200 virtual secure", "network create 100 physical none")
    ranges = done(*("users add 200 rank %d %d-%d" % (uid % 100, uid, uid) for uid in range(1000)))
    full = refused("EEXIST", "users add 200 rank 0 100-100") + refused("ENOSPC", "users add 200 1000-1000", "users add 200 rank 99 1000-1001")
    full += done("users remove 200 7-7,8-8", "users add 200 1000-1000,1001-1001") + refused("ENOSPC", "users add 200 7-7")
    return dialog("limit-network-ranges", built + ranges + full + done("app add 100 0 0-999"))


def rules_at_the_limit():
    """Two VPNs of 8 interfaces have 51 rules with those that are always there, and each range adds 24: with 1,664 of them there are 39,987 of
    40,000."""
    built = []
    for net in (200, 201):
        built.append("network create %d virtual secure" % net)
        for place in range(8):
            built += ["link add n%di%d %d" % (net, place, 8 * (net - 200) + place + 2), "interface add %d n%di%d" % (net, net, place)]
    first = done("users add 200 %s" % ",".join("%d-%d" % (uid, uid) for uid in range(30)))
    ranges = done(*("users add 200 %d-%d" % (uid, uid) for uid in range(30, 1000)), *("users add 201 %d-%d" % (uid, uid) for uid in range(1000, 1664)))
    full = refused("ENOSPC", "users add 201 1664-1664") + done("users remove 201 1663-1663", "users add 201 1664-1664") + refused("ENOSPC", "users add 201 1663-1663")
    return dialog("limit-rules", done(*built) + first + ranges + full)


def pairs_at_the_limit():
    """1,000 tether pairs. One that is there is refused as such even then."""
    built = done("link add out 2", "network create 100 physical none", "interface add 100 out", *("link add i%d %d" % (k, k + 3) for k in range(1001)))
    pairs = done(*("tether add i%d out" % k for k in range(1000)))
    full = refused("EEXIST", "tether add i0 out") + refused("ENOSPC", "tether add i1000 out")
    return dialog("limit-pairs", built + pairs + full + done("tether remove i0 out", "tether add i1000 out") + refused("ENOSPC", "tether add i0 out"))


def users_at_the_limit(name, set_line, unset_line):
    """10,000 users. One that is there is set again even then, and one that isn't there is unset in vain."""
    full = refused("ENOSPC", set_line % 10_000) + done(set_line % 0, set_line % 9_999, unset_line % 10_000) + refused("ENOSPC", set_line % 10_001)
    room = done(unset_line % 0, set_line % 10_000) + refused("ENOSPC", set_line % 0)
    return dialog("limit-" + name, done(*(set_line % uid for uid in range(10_000))) + full + room)


def sockets_at_the_limit():
    """10,000 sockets. A name that one has is refused as such even then."""
    def opened(*names):
        return [("socket open %s 10000" % name, "mark 0x0") for name in names]

    full = refused("EEXIST", "socket open s0 10000") + refused("ENOSPC", "socket open more 10000")
    room = done("socket close s0") + opened("more") + refused("ENOSPC", "socket open s0 10000")
    return dialog("limit-sockets", opened(*("s%d" % k for k in range(10_000))) + full + room)


def orders():
    """Each line has the reason that is answered, and mostly a later one too."""
    links = refused("EEXIST", "link add w 9", "link add x 2", "link add lo 9", "link add w 2")
    links += refused("ENODEV", "link remove x") + refused("EINVAL", "link remove lo") + refused("EBUSY", "link remove w", "link remove v")
    yield dialog("order-links", SMALL + links + done("link remove u"))

    networks = refused("EINVAL", "network create 99 physical system", "network create 98 physical none")
    networks += refused("EEXIST", "network create 100 physical none", "network create 101 physical system")
    yield dialog("order-networks", SMALL + networks + done("network create 65535 physical none"))

    permissions = refused("ENONET", "permission network 102 system", "permission network 0 none")
    permissions += refused("EINVAL", "permission network 99 system", "permission network 99 none")
    yield dialog("order-permissions", SMALL + permissions + done("permission network 100 none"))

    prefix = "0.0.0.0/0 via ::1"
    additions = refused("ENONET", "route add 102 x " + prefix, "route add 102 w " + prefix, "route add 102 lo " + prefix)
    additions += refused("ENODEV", "route add 100 x " + prefix, "route add 100 u " + prefix, "route add 100 lo " + prefix, "route add 99 u " + prefix)
    additions += refused("ENOENT", "route add 100 v " + prefix, "route add 101 w " + prefix, "route add 99 w " + prefix)
    additions += refused("EINVAL", "route add 100 w " + prefix, "route add 100 w ::/0 via 10.0.0.1")
    additions += refused("EEXIST", "route add 100 w 0.0.0.0/0", "route add 100 w 0.0.0.0/0 via 10.0.0.1")
    yield dialog("order-route-additions", SMALL + additions + done("route add 100 w 0.0.0.0/0 throw"))

    removals = refused("ENONET", "route remove 102 x 10.0.0.0/8", "route remove 102 w 0.0.0.0/0")
    removals += refused("ENODEV", "route remove 100 x 10.0.0.0/8", "route remove 100 u 0.0.0.0/0", "route remove 100 lo 127.0.0.0/8")
    removals += refused("ENOENT", "route remove 100 v 10.0.0.0/8", "route remove 101 w 0.0.0.0/0 special", "route remove 99 v 10.0.0.0/8")
    removals += refused("ESRCH", "route remove 100 w 0.0.0.0/0 special", "route remove 100 w 0.0.0.0/1", "route remove 100 w ::/0")
    yield dialog("order-route-removals", SMALL + removals + done("route remove 100 w 0.0.0.0/0"))
