"""Rows of what is watched, of packets that are passed on, and of the lines about sockets."""
from case import dialog, done, listed

BY_OWN = "0 lookup 255"
BY_LOCAL = "17000 lookup 97"
BY_LAST = "32000 unreachable"

# Up to here the kernel was asked 15 times: by the start, by the interface and by the route.
NETWORK = done("link add w 2", "network create 100 physical none", "interface add 100 w", "route add 100 w 0.0.0.0/0")


def watch_cases():
    yield from watched()
    yield from undone()
    yield from sockets()
    yield from passed()


def after(number, request, *answers):
    """The answer of a line before which a request of the watched packet is told."""
    return "request %s\n%d: %s" % (request, number, "\n".join(answers))


def watched():
    """A watch is replaced, ended, and left as it is by one that is refused; it follows its socket, and ends with it."""
    lines = NETWORK + [
        ("socket open s 10050", "mark 0x0"),
        ("watch s 8.8.8.8", "mark 0x0 unreachable"),
        ("watch x 8.8.8.8", "refused ENOENT"),
        ("default set 100", after(8, "16 out w", "done")),
        ("default clear", after(9, "19 unreachable", "done")),
        ("watch s 127.0.0.1", "mark 0x0 loopback"),
        ("default set 100", "done"),
        ("watch off", "done"),
        ("watch off", "done"),
        ("default clear", "done"),
        ("watch s 8.8.8.8", "mark 0x0 unreachable"),
        ("socket connect s", "mark 0x0"),
        ("default set 100", after(17, "24 out w", "done")),
        ("socket connect s", "mark 0x64"),
        ("default clear", "done"),
        ("permission network 100 system", after(20, "35 unreachable", "done")),
        ("socket close s", "done"),
        ("socket open s 1000", "mark 0x0"),
        ("socket connect s", "mark 0xc0000"),
        ("default set 100", "done"),
        ("watch s 8.8.8.8", "mark 0xc0000 out w"),
        ("lockdown add 0-0", "done"),
        ("socket close t", "refused ENOENT"),
        ("default clear", after(28, "47 unreachable", "done")),
    ]
    yield dialog("watch", lines)
    yield dialog("watch-a-socket-named-off", [("socket open off 5", "mark 0x0"), ("watch off ::1", "mark 0x0 loopback"), ("watch off", "done")])


def undone():
    """A command that the kernel refuses takes the watched packet over and back; one that halts leaves it where it was by then."""
    vpn = done(
        "link add wlan0 3",
        "link add tun0 5",
        "network create 100 physical none",
        "interface add 100 wlan0",
        "route add 100 wlan0 0.0.0.0/0",
        "default set 100",
        "network create 200 virtual secure",
        "interface add 200 tun0",
        "route add 200 tun0 0.0.0.0/0",
    )
    watch = [("socket open s 10050", "mark 0x0"), ("watch s 8.8.8.8", "mark 0x0 out wlan0")]
    for refused in range(28, 33):
        told = "request 27 out tun0\n12: request %d out wlan0\n12: kernel refused request %d" % (2 * refused - 27, refused)
        yield dialog("watch-undone-%d" % refused, vpn + watch + [("users add 200 10000-19999", told)], words=("run", "--refuse", str(refused)))
    lines = NETWORK + [
        ("default set 100", "done"),
        ("socket open s 10050", "mark 0x0"),
        ("socket connect s", "mark 0x64"),
        ("watch s 8.8.8.8", "mark 0x64 out w"),
        ("permission network 100 system", after(9, "29 unreachable", "halted at request 30")),
    ]
    yield dialog("watch-halted", lines, words=("run", "--break", "5"), status=7)


def sockets():
    """Lines about sockets: the first refusal of each, and what is shown of a socket whose link is gone."""
    network = done("link add w 2", "link add v 3", "network create 100 physical network", "interface add 100 w")
    accepted = [
        ("socket accept c 10050 w", "mark 0x70064"),
        ("socket accept d 1000 w", "mark 0xf0064"),
        ("socket accept e 1000 v", "refused ENODEV"),
        ("socket accept c 1000 w", "refused EEXIST"),
    ]
    d_line = "d uid 1000 mark 0xf0064 bound -"
    bound = [
        ("socket bind c v", "mark 0x70064"),
        ("socket bind c x", "refused ENODEV"),
        ("socket bind x v", "refused ENOENT"),
        ("show sockets", listed("2 sockets", "c uid 10050 mark 0x70064 bound v", d_line)),
        ("link remove v", "done"),
        ("show sockets", listed("2 sockets", "c uid 10050 mark 0x70064 bound #3", d_line)),
        ("trace c 127.0.0.1", listed("mark 0x70064 unreachable", BY_OWN, "13000 lookup 1002", BY_LAST)),
        ("socket unbind c", "mark 0x70064"),
        ("socket close d", "done"),
        ("socket close d", "refused ENOENT"),
    ]
    chosen = [
        ("access 10050 100", "refused EACCES"),
        ("access 1000 100", "done"),
        ("access 10050 99", "done"),
        ("access 10050 5", "refused ENONET"),
        ("socket select c 100", "refused EACCES"),
        ("socket select c 99", "mark 0x10063"),
        ("socket protect c", "refused EPERM"),
        ("socket selectfor c 1000", "refused EPERM"),
        ("socket protect d", "refused ENOENT"),
        ("trace d ::1", "refused ENOENT"),
        ("show sockets", listed("1 sockets", "c uid 10050 mark 0x10063 bound -")),
    ]
    yield dialog("sockets", network + accepted + bound + chosen)


def passed():
    """Packets that are passed on: by the local network, then by tether pairs; not by `lo`."""
    lines = done(
        "link add w 2",
        "link add v 3",
        "network create 100 physical system",
        "interface add 100 w",
        "interface add 99 v",
        "route add 99 v 10.0.0.0/8",
        "route add 100 w 0.0.0.0/0",
    ) + [
        ("passed v 8.8.8.8", listed("unreachable", BY_OWN, BY_LOCAL, BY_LAST)),
        ("tether add v w", "done"),
        ("passed v 8.8.8.8", listed("out w", BY_OWN, BY_LOCAL, "18000 lookup 1002")),
        ("passed w 10.1.1.1", listed("out v", BY_OWN, BY_LOCAL)),
        ("passed w 127.0.0.1", listed("loopback", BY_OWN)),
        ("passed lo 127.0.0.1", "refused EINVAL"),
        ("passed x ::1", "refused ENODEV"),
    ]
    yield dialog("passed", lines)
