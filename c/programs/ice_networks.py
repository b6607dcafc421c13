"""Networks of this machine for stun-ice: two hosts, each with its own router, which may be a NAT, and a server
between them."""
import pathlib
import shutil
import subprocess
import sys

HERE = pathlib.Path(__file__).resolve().parent
sys.path.insert(0, str(HERE.parent / "server/trials"))
from hosts import Host
from steps import Skipped

SERVER = ("192.0.2.1", "2001:db8::1")
OUTSIDE = {"left": "198.51.100.2", "right": "203.0.113.2"}
INSIDE = {"left": "10.0.1.2", "right": "10.0.2.2"}
SIX = {"left": "2001:db8:1::2", "right": "2001:db8:2::2"}

# Four kinds of NATs (RFC 4787, sections 4.1 and 5). The first three keep the port, so that the mapping depends on the
# endpoint inside alone. What nobody asked for is dropped before it has a mapping of its own.
MAPPED = """
table ip nat {
    set asked { type ipv4_addr; flags dynamic; }
    chain leaving { type nat hook postrouting priority 100; oifname "outside" snat to ADDRESS HOW; }
    chain coming { type nat hook prerouting priority -100; COMING }
    chain forward { type filter hook forward priority 0; FORWARD }
    chain input { type filter hook input priority 0; iifname "outside" meta l4proto udp drop; }
}
"""
PASSED_ON = 'iifname "outside" meta l4proto udp dnat to INSIDE;'
KINDS = {
    "full-cone": ("", PASSED_ON, ""),
    "address-restricted": ("", PASSED_ON, 'oifname "outside" add @asked { ip daddr }; '
                           'iifname "outside" ip saddr != @asked drop;'),
    "port-restricted": ("", "", ""),
    "symmetric": ("fully-random", "", ""),
}
LOSS = """
table inet loss {
    chain lose { meta l4proto udp numgen random mod 100 < PERCENT counter drop; }
    chain forward { type filter hook forward priority 0; jump lose; }
    chain input { type filter hook input priority 0; iifname != "lo" jump lose; }
}
"""


class Networks:
    """The server's host forwards. Without a kind a host has a router that isn't a NAT, and IPv6 too."""

    def __init__(self, left=None, right=None, loss=0):
        lacks = [it for it in ("ip", "nft") if not shutil.which(it)]
        if lacks:
            raise Skipped(f"it needs {', '.join(lacks)}")
        self.hosts = {}
        self.server = self.host("server")
        self.server.address("lo", f"{SERVER[0]}/32", f"{SERVER[1]}/128")
        for name, kind in (("left", left), ("right", right)):
            self.side(name, kind)
        forward(self.server)
        if loss:
            rules(self.server, LOSS.replace("PERCENT", str(loss)))

    def host(self, name):
        self.hosts[name] = Host()
        return self.hosts[name]

    def side(self, name, kind):
        """A host and its router."""
        host, router, outside, inside, six = (self.host(name), self.host(f"{name} router"), OUTSIDE[name], INSIDE[name],
                                              SIX[name])
        join(self.server, name, f"{outside[:-1]}1/24", router, "outside", f"{outside}/24")
        router.ip(f"route add default via {outside[:-1]}1")
        join(router, "inside", f"{inside[:-1]}1/24", host, "uplink", f"{inside}/24")
        host.ip(f"route add default via {inside[:-1]}1")
        self.six(name, router, host, six)
        forward(router)
        if kind:
            how, coming, passing = KINDS[kind]
            text = MAPPED.replace("ADDRESS", outside).replace("HOW", how).replace("COMING", coming)
            rules(router, text.replace("FORWARD", passing).replace("INSIDE", inside))
        else:
            self.server.ip(f"route add {inside[:-1]}0/24 via {outside}")

    def six(self, name, router, host, address):
        """IPv6, which no router translates."""
        near = address[:-1]
        self.server.ip(f"address add {near}f:1/112 dev {name} nodad")
        router.ip(f"address add {near}f:2/112 dev outside nodad")
        router.ip(f"address add {near}1/112 dev inside nodad")
        host.ip(f"address add {address}/112 dev uplink nodad")
        self.server.ip(f"route add {near}0/112 via {near}f:2")
        router.ip(f"route add default via {near}f:1")
        host.ip(f"route add default via {near}1")

    def __enter__(self):
        return self

    def __exit__(self, *_):
        for host in self.hosts.values():
            host.close()


def join(one, name, address, other, other_name, other_address):
    """A cable between two hosts."""
    one.ip(f"link add {name} type veth peer name {other_name} netns {other.path}")
    ends = [(one, name, address, "fe80::1/64"), (other, other_name, other_address, "fe80::2/64")]
    for host, device, own, near in ends:
        host.ip(f"link set {device} addrgenmode none")  # (a link-local address would be tentative at first)
        host.address(device, own, near)


def forward(host):
    with host.inside():
        for name in ("ipv4/ip_forward", "ipv6/conf/all/forwarding"):
            pathlib.Path("/proc/sys/net", name).write_text("1")


def rules(host, text):
    with host.inside():
        ran = subprocess.run(["nft", "-f", "-"], input=text, capture_output=True, text=True, timeout=20)
    if ran.returncode != 0:
        raise Skipped(f"nftables can't do so here: {ran.stderr[:200]}")
