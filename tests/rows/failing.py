"""Rows of commands in which each request in turn is refused or breaks, with packets that are watched meanwhile.

What they are to answer is told by the model of tests/random, which shares nothing with the program. It asks by itself that each watched
packet goes where the policy before or after the command says.
"""
import pathlib
import sys

from case import Case

sys.path.insert(0, str(pathlib.Path(__file__).parents[1] / "random"))
import netd_model as model

WIFI = """\
link add wlan0 2
network create 100 physical none
interface add 100 wlan0
route add 100 wlan0 0.0.0.0/0 via 192.168.1.1
route add 100 wlan0 192.168.1.0/24
route add 100 wlan0 ::/0
"""
MOBILE = """\
link add rmnet0 3
link add rmnet1 4
network create 101 physical none
interface add 101 rmnet0
interface add 101 rmnet1
route add 101 rmnet0 0.0.0.0/0
route add 101 rmnet1 2001:db8::/32
route add 101 rmnet1 0.0.0.0/1
"""
VPN = """\
link add tun0 5
link add tun1 6
network create 200 virtual secure
interface add 200 tun0
interface add 200 tun1
route add 200 tun0 0.0.0.0/1
route add 200 tun1 128.0.0.0/1
users add 200 10000-10099
network create 201 virtual bypassable
"""
LOCAL = """\
link add usb0 7
link add usb1 8
interface add 99 usb0
interface add 99 usb1
route add 99 usb1 192.168.0.0/16
route add 99 usb0 192.168.42.0/24
route add 99 usb0 192.168.42.7/32
route add 99 usb0 0.0.0.0/0
route add 99 usb0 192.168.0.0/17
route add 99 usb0 10.0.0.0/8
route add 99 usb1 10.0.0.0/9
route add 99 usb0 fe80::/64
route add 99 usb0 2001:db8::/32
route add 99 usb0 2001:db8:1::/48
route add 99 usb0 2001:db8:1::7/128
route add 99 usb0 ::/0
route add 99 usb1 2001:db8:1:1::/64
tether add usb0 rmnet0
"""
USB = """\
link add usb0 7
interface add 99 usb0
route add 99 usb0 192.168.42.0/24
tether add usb0 rmnet0
tether add usb0 wlan0
"""
SOCKETS = """\
socket open app 10050
socket open other 20000
socket open root 0
"""

# What stands, the command, the packets to watch (a socket and an address each), and what is asked afterwards.
COMMANDS = {
    "default": (WIFI + MOBILE + "default set 100\n", "default set 101", ("app 8.8.8.8", "app 192.168.1.9", "other 8.8.8.8")),
    "default-clear": (WIFI + VPN + "default set 100\n", "default clear", ("other 8.8.8.8", "app 8.8.8.8")),
    "destroy": (WIFI + MOBILE + USB + "default set 101\n", "network destroy 101", ("app 8.8.8.8", "app 2001:db8::1", "other 8.8.8.8")),
    "interface": (WIFI + MOBILE + "default set 101\n", "interface remove 101 rmnet0", ("app 8.8.8.8", "app 200.1.1.1")),
    "vpn-users": (WIFI + VPN + "default set 100\n", "users add 200 rank 5 20000-20099,30000-30099", ("app 8.8.8.8", "other 8.8.8.8")),
    "vpn-interface": (WIFI + VPN + "default set 100\nlockdown add 10000-10199\n", "interface remove 200 tun0", ("app 8.8.8.8", "app 200.1.1.1", "root 8.8.8.8")),
    "vpn-comes": (WIFI + "default set 100\n", "network create 300 virtual secure", ("app 8.8.8.8",)),
    "local": (WIFI + MOBILE + LOCAL, "interface remove 99 usb0", ("app 192.168.42.7", "app 192.168.42.9", "other 2001:db8:1::7", "root 10.1.2.3")),
    "apps": (WIFI + MOBILE + "default set 100\n", "app add 101 3 10000-10099,20000-20000", ("app 8.8.8.8", "other 8.8.8.8")),
    "permission": (WIFI + "default set 100\n", "permission network 100 system", ("app 8.8.8.8", "root 8.8.8.8")),
    "tether": (WIFI + MOBILE + LOCAL, "tether remove usb0 rmnet0", ("app 8.8.8.8",)),
}

AFTER = """\
passed usb0 8.8.8.8
packet 10050 0x10065 8.8.8.8
packet 0 0x0 8.8.8.8 on wlan0
show rules 4
show rules 6
show networks
"""


def failing_cases():
    for name, (before, command, watched) in COMMANDS.items():
        for number, packet in enumerate(watched, 1):
            asked = "trace %s\n" % packet
            script = before + SOCKETS + "watch %s\n" % packet + command + "\n" + asked + AFTER
            additions, deletions = requests(before, command)
            for words in failures(additions, deletions):
                yield case("%s-%d-%s" % (name, number, "-".join(words[1:]).replace("--", "") or "whole"), script, words)


def requests(before, command):
    """The numbers of the additions and of the deletions that the command asks for."""
    session = model.Session()
    session.run(before.encode())
    old = session.kernel.additions, session.kernel.deletions
    session = model.Session()
    session.run((before + command + "\n").encode())
    new = session.kernel.additions, session.kernel.deletions
    return [range(first + 1, last + 1) for first, last in zip(old, new)]


def failures(additions, deletions):
    """No failure, each addition refused, each of these with the first or second deletion of the undoing broken, each deletion broken."""
    yield ("run",)
    for k in additions:
        yield ("run", "--refuse", str(k))
    for k in list(additions)[1:4]:
        for broken in (deletions.start, deletions.start + 1):
            yield ("run", "--refuse", str(k), "--break", str(broken))
    for k in deletions:
        yield ("run", "--break", str(k))


def case(name, script, words):
    options = dict(zip(words[1::2], words[2::2]))
    session = model.Session(*([int(options[option])] if option in options else [] for option in ("--refuse", "--break")))
    output, status = session.run(script.encode())
    return Case("failing-" + name, script.encode(), output, status, words)
