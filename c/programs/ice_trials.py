"""Trials of stun-ice: on the loopback, and in networks with routers that translate addresses."""
import contextlib
import json
import os
import pathlib
import re
import shutil
import signal
import socket
import subprocess
import sys
import tempfile
import threading
import time

HERE = pathlib.Path(__file__).resolve().parent
sys.path.insert(0, str(HERE.parent / "server/trials"))
import turn_servers
from hosts import Capture
from ice_networks import INSIDE, KINDS, SERVER, Networks
from steps import Skipped, Wrong, build, c_compiler, check, run

PATIENCE = 60  # seconds, for what takes some on an idle machine
LOCAL = ["-a", "127.0.0.1"]
USER = ["-u", turn_servers.USER]


class Side:
    """A stun-ice that runs, perhaps on a host of a network; what it prints is kept."""

    def __init__(self, program, *words, host=None, output=subprocess.PIPE):
        environment = {**os.environ, "STUN_PASSWORD": turn_servers.PASSWORD}
        pipes = {"stdin": subprocess.PIPE, "stdout": output, "stderr": subprocess.PIPE}
        with host.inside() if host else contextlib.nullcontext():
            self.ran = subprocess.Popen([program, "--json", *map(str, words)], env=environment, **pipes)
        self.events, self.others, self.data = [], [], b""
        self.readers = [threading.Thread(target=it, daemon=True) for it in (self.read_events, self.read_data)]
        for reader in self.readers:
            reader.start()

    def read_events(self):
        for line in self.ran.stderr:
            try:
                self.events.append({**json.loads(line), "at": time.monotonic()})
            except ValueError:
                self.others.append(line.decode(errors="replace"))

    def read_data(self):
        while piece := self.ran.stdout and self.ran.stdout.read1(65536):
            self.data += piece

    def found(self, event, count=1):
        all_of = [it for it in self.events if it["event"] == event]
        return all_of[count - 1] if len(all_of) >= count else None

    def wait_for(self, event, count=1, seconds=PATIENCE):
        """The event of this name, the first or a later one."""
        end = time.monotonic() + seconds
        while not self.found(event, count):
            over = self.ran.poll() is not None and not self.readers[0].is_alive()
            check(not over and time.monotonic() < end, f"no event {event}, but {self.told()}")
            time.sleep(0.01)
        return self.found(event, count)

    def told(self):
        kept = [{name: it[name] for name in it if name != "at"} for it in self.events if it["event"] != "candidate"]
        return f"{kept[-12:]}, {self.others[-5:]}"

    def write(self, data):
        self.ran.stdin.write(data)
        self.ran.stdin.flush()

    def received(self, data, seconds=PATIENCE):
        end = time.monotonic() + seconds
        while data not in self.data:
            check(time.monotonic() < end, f"it received {self.data[-200:]!r}, not {data!r}: {self.told()}")
            time.sleep(0.01)

    def end(self, status=0):
        """Ends its input, and waits until it ends."""
        with contextlib.suppress(BrokenPipeError):
            self.ran.stdin.close()
        got = self.ran.wait(PATIENCE)
        for reader in self.readers:
            reader.join()
        complaints = [it for it in self.others if "Sanitizer" in it]
        check(got == status and not complaints, f"status {got}: {self.told()}")

    def end_of_connection(self, status):
        """Waits until it ends by itself."""
        got = self.ran.wait(PATIENCE)
        for reader in self.readers:
            reader.join()
        check(got == status, f"status {got}: {self.told()}")

    def __enter__(self):
        return self

    def __exit__(self, *_):
        if self.ran.poll() is None:
            self.ran.send_signal(signal.SIGCONT)
            self.ran.kill()
        self.ran.wait()
        for reader in self.readers:
            reader.join()
        for file in filter(None, (self.ran.stdin, self.ran.stdout, self.ran.stderr)):
            with contextlib.suppress(BrokenPipeError):
                file.close()


@contextlib.contextmanager
def pair_of(program, left, right, hosts=(None, None), folder=None):
    """Two that read each other's descriptions from files; the left one controls."""
    with contextlib.ExitStack() as all_of:
        folder = folder or all_of.enter_context(tempfile.TemporaryDirectory(prefix="stun-ice-"))
        files = [f"{folder}/left", f"{folder}/right"]
        one = all_of.enter_context(Side(program, "-c", "-o", files[0], "-p", files[1], *left, host=hosts[0]))
        other = all_of.enter_context(Side(program, "-o", files[1], "-p", files[0], *right, host=hosts[1]))
        yield one, other


def talk(one, other, count=1):
    """Both are connected, and what each sends the other receives. Returns the left one's last pair."""
    found = one.wait_for("connected", count)
    other.wait_for("connected", count)
    return found


def exchange(one, other, label=b""):
    """A line each way. Datagrams may be lost: a line is written until it has come."""
    for source, sink, text in ((one, other, b"from the left" + label), (other, one, b"from the right" + label)):
        for _ in range(20):
            source.write(text + b"\n")
            with contextlib.suppress(Exception):
                sink.received(text, 0.5)
                break
        sink.received(text, 1)


def finish(one, other):
    one.ran.stdin.close()
    other.ran.stdin.close()
    one.end()
    other.end()


# ---- On the loopback


def loopback(programs):
    """Two connect by files, on both loopback addresses, and end with their inputs."""
    for address in ("127.0.0.1", "::1"):
        with pair_of(programs["stun-ice"], ["-a", address], ["-a", address]) as (one, other):
            pair = talk(one, other)
            check(pair["base"] == "host", f"the pair is {pair}")
            exchange(one, other)
            finish(one, other)


def copied(programs):
    """Descriptions are copied: one as one line, the other line by line while both are connecting already."""
    with Side(programs["stun-ice"], *LOCAL, "-c") as one, Side(programs["stun-ice"], *LOCAL) as other:
        one.wait_for("description")
        lines = [it["line"] for it in one.events if it["event"] in ("line", "candidate")]
        check(lines[0].startswith("a=ice-ufrag:") and lines[-1] == "a=end-of-candidates", f"the lines are {lines}")
        check(";".join(lines) == one.found("description")["line"], f"the one line isn't {lines}")
        one.write(other.wait_for("description")["line"].encode() + b"\n")
        for line in ["v=0", "m=audio 9 UDP/TLS/RTP/SAVPF 0", *lines]:
            other.write(line.encode() + b"\r\n")
            time.sleep(0.1)
        talk(one, other)
        exchange(one, other)
        other.write(b"a" * 5000)
        one.received(b"a" * 5000)
        finish(one, other)


def pairs_and_reasons(programs):
    """SIGUSR1 prints the pairs. If nobody answers, the reason has counts; so has a time-out."""
    nobody = "a=ice-ufrag:abcd;a=ice-pwd:abcdefghijklmnopqrstuv;a=candidate:1 1 UDP 2130706431 127.0.0.1 9 typ host"
    with Side(programs["stun-ice"], *LOCAL, "-c") as one:
        one.write(nobody.encode() + b";a=end-of-candidates\n")
        time.sleep(1)
        one.ran.send_signal(signal.SIGUSR1)
        pair = one.wait_for("pair")
        check(pair["to"] == "127.0.0.1:9" and pair["state"] == "in-progress", f"the pair is {pair}")
        failed = one.wait_for("failed")["reason"]
        check(failed == "no pair answered: 1 tried, each by up to 5 requests", failed)
        one.end(4)
    for description, words, reason in (
            (nobody + "\n", ["-w", "2"], "no pair answered: 1 tried, each by up to [23] requests"),
            (nobody.replace("127.0.0.1 9", "2001:db8::1 9") + ";a=end-of-candidates\n", [], "address family"),
            (nobody.replace("UDP", "TCP") + ";a=end-of-candidates\n", [], "no candidate .* can be used; it has 1"),
            ("", [], "the peer has described nothing")):
        with Side(programs["stun-ice"], *LOCAL, *words) as one:
            one.write(description.encode())
            if not words:
                one.ran.stdin.close()
            check(re.search(reason, it := one.wait_for("failed")["reason"]), it)
            one.end(4)


def restarted(programs):
    """A restart by each side keeps the connection until the new one is there; no data is lost on the loopback."""
    with pair_of(programs["stun-ice"], LOCAL, LOCAL) as (one, other):
        talk(one, other)
        for count, side in ((2, one), (3, other)):
            side.ran.send_signal(signal.SIGUSR2)
            for number in range(20):
                one.write(b"%d.%d\n" % (count, number))
                other.write(b"%d.%d\n" % (count, number))
                time.sleep(0.02)
            talk(one, other, count)
            for it in (one, other):
                for number in range(20):
                    it.received(b"%d.%d\n" % (count, number), 2)
        finish(one, other)


def abandoned(programs):
    """A peer that ends without a word is noticed when its consent expires; with files ICE restarts, and the next
    program at the other end is connected."""
    with tempfile.TemporaryDirectory(prefix="stun-ice-") as folder:
        files = [f"{folder}/left", f"{folder}/right"]
        with Side(programs["fast-ice"], *LOCAL, "-c", "-o", files[0], "-p", files[1]) as one:
            with Side(programs["fast-ice"], *LOCAL, "-o", files[1], "-p", files[0]) as other:
                talk(one, other)
                other.ran.kill()
            one.wait_for("restart")
            with Side(programs["fast-ice"], *LOCAL, "-o", files[1], "-p", files[0]) as other:
                other.wait_for("connected")
                one.wait_for("connected", 2)
                exchange(one, other)
                finish(one, other)
    with Side(programs["fast-ice"], *LOCAL, "-c") as one, Side(programs["fast-ice"], *LOCAL) as other:
        one.write(other.wait_for("description")["line"].encode() + b"\n")
        other.write(one.wait_for("description")["line"].encode() + b"\n")
        talk(one, other)
        other.ran.kill()
        failed = one.wait_for("failed")["reason"]
        check("its consent has expired" in failed, failed)
        one.end(4)


def reordered(programs):
    """The lines of a description may have any order in a file, also when the peer restarts."""
    with tempfile.TemporaryDirectory(prefix="stun-ice-") as folder:
        def turn_over(event):
            lines = event["line"].split(";")
            pathlib.Path(folder, "new").write_text("".join(f"{line}\r\n" for line in ["v=0", *lines[::-1]]))
            pathlib.Path(folder, "new").rename(f"{folder}/right")
        with Side(programs["stun-ice"], *LOCAL, "-c", "-o", f"{folder}/left", "-p", f"{folder}/right") as one, \
                Side(programs["stun-ice"], *LOCAL, "-p", f"{folder}/left") as other:
            for count in (1, 2):
                turn_over(other.wait_for("description", count))
                talk(one, other, count)
                exchange(one, other, b"%d" % count)
                if count == 1:
                    other.ran.send_signal(signal.SIGUSR2)
            check(one.found("restart")["reason"] == "the peer has new credentials", one.told())
            finish(one, other)


def named(programs):
    """A peer whose candidates have host names, as those of browsers, is found by its checks, which come later."""
    with Side(programs["stun-ice"], *LOCAL, "-c") as one, Side(programs["stun-ice"], *LOCAL) as other:
        line = other.wait_for("description")["line"]
        one.write(line.replace(" 127.0.0.1 ", " 6403c10c-43af.local ").encode() + b"\n")
        time.sleep(0.5)
        other.write(one.wait_for("description")["line"].encode() + b"\n")
        talk(one, other)
        exchange(one, other)
        finish(one, other)


def lite(programs):
    """A peer that only answers checks, of which the user says so, or which says itself that it is lite, in a file also
    at its end."""
    described = ("a=ice-ufrag:abcd\na=ice-pwd:abcdefghijklmnopqrstuv\n"
                 "a=candidate:1 1 UDP 2130706431 127.0.0.1 PORT typ host\na=end-of-candidates\n")
    for words, text in ((["-l"], described), ([], f"a=ice-lite\n{described}"), (["-p"], f"{described}a=ice-lite\n")):
        command = [programs["ice_responder"], "127.0.0.1", "0", "abcd", "abcdefghijklmnopqrstuv", "7"]
        with tempfile.NamedTemporaryFile("w") as file, subprocess.Popen(
                command, stdin=subprocess.PIPE, stdout=subprocess.PIPE, text=True) as peer:
            text = text.replace("PORT", peer.stdout.readline().strip().rpartition(":")[2])
            pathlib.Path(file.name).write_text(text)
            more = [file.name] if words == ["-p"] else []
            with Side(programs["stun-ice"], *LOCAL, *words, *more) as one:
                if not more:
                    one.write(text.encode())
                one.wait_for("connected")
                one.ran.send_signal(signal.SIGTERM)
                one.end()
            answered = peer.communicate(timeout=PATIENCE)[0]
        check("nominated" in answered and "refused" not in answered, f"the peer says {answered!r}")


def lite_agent(programs):
    """This side is a lite agent: to a peer that controls, and to one that learns from the description that it has to.
    When the peer restarts, data goes on; when it stops, the lite agent says so 30 s later. Two lite ones never connect."""
    for role in ([], ["-c"]):
        with tempfile.TemporaryDirectory(prefix="stun-ice-") as folder:
            files = [f"{folder}/left", f"{folder}/right"]
            with Side(programs["stun-ice"], *LOCAL, *role, "-o", files[0], "-p", files[1]) as one, \
                    Side(programs["stun-ice"], *LOCAL, "--lite", "-o", files[1], "-p", files[0]) as other:
                talk(one, other)
                check("a=ice-lite" in pathlib.Path(files[1]).read_text(), "it doesn't describe itself as lite")
                exchange(one, other)
                one.ran.send_signal(signal.SIGUSR2)
                talk(one, other, 2)
                finish(one, other)
    with Side(programs["stun-ice"], *LOCAL, "-c") as one, Side(programs["stun-ice"], *LOCAL, "-L") as other:
        one.write(other.wait_for("description")["line"].encode() + b"\n")
        other.write(one.wait_for("description")["line"].encode() + b"\n")
        talk(one, other)
        one.ran.kill()
        killed = time.monotonic()
        other.end_of_connection(4)
        took = time.monotonic() - killed
        check(23 < took < 33, f"the lite agent gave up after {took:.1f} s")
    with Side(programs["stun-ice"], *LOCAL, "-L", "-w", 2) as one, Side(programs["stun-ice"], *LOCAL, "-L", "-w", 2) as other:
        one.write(other.wait_for("description")["line"].encode() + b"\n")
        other.write(one.wait_for("description")["line"].encode() + b"\n")
        for it in (one, other):
            it.end_of_connection(4)
            check("both agents are lite" in "".join(it.others), f"it says {it.told()}")


def lite_with_libnice(programs):
    """An agent of libnice connects to a lite one in each role: a controlled one gets 487, and controls then."""
    command = libnice_command(programs)
    with Networks() as network:
        for role in ("controlling", "controlled"):
            for nomination in ("regular", "aggressive"):
                took = with_other(programs, network, command, ["-L"], SOME, role, nomination)
                print(f"  libnice {role}, {nomination}, ours lite: {took:.2f} s, {SOME} bytes each way", flush=True)


def lite_with_aioice(programs):
    """An agent of aioice likewise."""
    command = aioice_command(programs)
    with Networks() as network:
        for role in ("controlling", "controlled"):
            took = with_other(programs, network, command, ["-L"], SOME, role)
            print(f"  aioice {role}, ours lite: {took:.2f} s, {SOME} bytes each way", flush=True)


def full_output(programs):
    """Standard output that can't be written ends it."""
    with tempfile.TemporaryDirectory(prefix="stun-ice-") as folder, open("/dev/full", "w") as full:
        files = [f"{folder}/left", f"{folder}/right"]
        with Side(programs["stun-ice"], *LOCAL, "-c", "-o", files[0], "-p", files[1], output=full) as one, \
                Side(programs["stun-ice"], *LOCAL, "-o", files[1], "-p", files[0]) as other:
            talk(one, other)
            other.write(b"to nobody\n")
            one.end(3)
            check("standard output" in "".join(one.others), f"it says {one.others}")


# ---- Networks


@contextlib.contextmanager
def server_of(programs, network, kind="stun-server"):
    """A TURN server, this one or coturn's, between the hosts."""
    with tempfile.TemporaryDirectory(prefix="stun-ice-") as folder:
        settings = turn_servers.Settings()
        if kind == "coturn":
            served = turn_servers.coturn(network.server, pathlib.Path(folder), settings)
        else:
            served = turn_servers.this_server(programs["stun-server"], network.server, folder, settings)
        with served as server:
            yield f"{SERVER[0]}:{server.port}", f"[{SERVER[1]}]:{server.port}"


def sides_of(network):
    return network.hosts["left"], network.hosts["right"]


def relayed(programs):
    """Relayed alone on both sides, over UDP, over TCP and over IPv6."""
    with Networks() as network, server_of(programs, network) as (four, six):
        for words in (["-r", four], ["-r", four, "-t"], ["-r", six, "-6"]):
            with pair_of(programs["stun-ice"], *[[*words, *USER, "-R"]] * 2, hosts=sides_of(network)) as (one, other):
                pair = talk(one, other)
                check(pair["base"] == "relay" and re.search(r"192\.0\.2\.1|2001:db8::1", pair["to"]), f"{pair}")
                exchange(one, other)
                finish(one, other)


def relayed_once(programs):
    """One side is relayed alone through coturn, the other one through stun-server."""
    with Networks("symmetric", "symmetric") as network, server_of(programs, network) as (own, _), \
            server_of(programs, network, "coturn") as (theirs, _):
        with pair_of(programs["stun-ice"], ["-r", own, *USER, "-R"], ["-r", theirs, *USER, "-R"],
                     hosts=sides_of(network)) as (one, other):
            pair = talk(one, other)
            check(pair["base"] == "relay", f"{pair}")
            exchange(one, other)
            finish(one, other)


def through(programs, left, right, loss):
    """Connects through NATs of two kinds. Returns whether by a relay, and the time from the later description on."""
    with Networks(left, right, loss) as network, server_of(programs, network) as (four, _):
        words = ["-r", four, *USER, "-4"]
        with pair_of(programs["stun-ice"], words, words, hosts=sides_of(network)) as (one, other):
            pair = talk(one, other)
            began = max(it.wait_for("description")["at"] for it in (one, other))
            exchange(one, other)
            finish(one, other)
    return "relay" in (pair["base"], other.found("connected")["base"]), max(0, pair["at"] - began)


def nats(programs, loss=0):
    """Each kind with each. Symmetric ones need the relay with symmetric or port-restricted ones, and may use it with
    others, since whichever pair succeeds first may be nominated. Others connect directly, of three times at least
    once, or loss is the reason."""
    direct = relays = 0
    for number, left in enumerate(KINDS):
        for right in list(KINDS)[number:]:
            needed = right == "symmetric" and left in ("symmetric", "port-restricted")
            for _ in range(3):
                by_relay, took = through(programs, left, right, loss)
                direct, relays = direct + (not by_relay), relays + by_relay
                print(f"  {left}, {right}: {'relayed' if by_relay else 'direct'}, {took:.1f} s", flush=True)
                if loss or right == "symmetric" or not by_relay:
                    break
            check(by_relay or not needed, f"{left}, {right}: directly")
            check(loss or right == "symmetric" or not by_relay, f"{left}, {right}: always by the relay")
    print(f"  with {loss} % loss: {direct} direct, {relays} relayed", flush=True)


def lossy_nats(programs):
    nats(programs, 5)


def direct_six(programs):
    """Over IPv6, which no router translates, though the IPv4 routers are symmetric NATs."""
    with Networks("symmetric", "symmetric") as network:
        with pair_of(programs["stun-ice"], [], [], hosts=sides_of(network)) as (one, other):
            pair = talk(one, other)
            check(pair["to"].startswith("[2001:db8:2::"), f"{pair}")
            exchange(one, other)
            finish(one, other)


def consent(programs):
    """The peer stops, and the left one has more and more to send: nothing leaves it 30 s later, as tshark sees it."""
    with Networks() as network:
        with pair_of(programs["stun-ice"], ["-4"], ["-4"], hosts=sides_of(network)) as (one, other):
            talk(one, other)
            exchange(one, other)
            with Capture(network.server) as capture:
                other.ran.send_signal(signal.SIGSTOP)
                stopped, seen = time.monotonic(), []
                while time.monotonic() < stopped + 36:
                    with contextlib.suppress(BlockingIOError, BrokenPipeError):
                        os.set_blocking(one.ran.stdin.fileno(), False)
                        os.write(one.ran.stdin.fileno(), b"data")
                    seen.append((time.monotonic() - stopped, sum(it[2] == b"data" for it in capture.seen)))
                    time.sleep(0.1)
                capture.catch_up()
                total = sum(it[2].startswith(b"data") for it in capture.seen)
                last = max(at for at, count in seen if count < seen[-1][1])
    check(total > 100 and last < 30.5, f"{total} datagrams, the last one after {last:.1f} s")
    print(f"  {total} datagrams of data left, the last one {last:.1f} s after the peer stopped", flush=True)


def described_victim(port):
    return ("a=ice-ufrag:abcd\na=ice-pwd:abcdefghijklmnopqrstuv\n"
            f"a=candidate:1 1 UDP 2130706431 {INSIDE['right']} {port} typ host\na=end-of-candidates\n").encode()


def victim(programs):
    """A description with a victim's address: five requests go there, and nothing else. What other agents send to
    another port of it meanwhile is counted too."""
    others = dict(zip((4445, 4446), (libnice_command, aioice_command)))
    with Networks() as network, contextlib.ExitStack() as all_of:
        left, right = sides_of(network)
        with right.inside():
            for port in (4444, *others):
                silent = all_of.enter_context(socket.socket(socket.AF_INET, socket.SOCK_DGRAM))
                silent.bind((INSIDE["right"], port))
        capture = all_of.enter_context(Capture(right))
        for port, command in others.items():
            with contextlib.suppress(Skipped):
                other = all_of.enter_context(Echo(command(programs), "controlling", host=left))
                other.described()
                other.ran.stdin.write(described_victim(port))
                other.ran.stdin.flush()
        with Side(programs["stun-ice"], "-4", "-c", host=left) as one:
            one.write(described_victim(4444))
            one.wait_for("failed")
            one.end(4)
        time.sleep(20)
        capture.catch_up()
    counts = {port: sum(it[:2] == (INSIDE["right"], port) for it in capture.seen) for port in (4444, *others)}
    check(counts[4444] == 5, f"{counts[4444]} datagrams")
    print(f"  {counts[4444]} datagrams to the victim; of libnice {counts[4445]}, of aioice {counts[4446]}", flush=True)


# ---- With other agents

ALL, SOME = 10_000_000, 200_000  # bytes, each way
ROLES = [("controlling", []), ("controlled", ["-c"]), ("controlling", ["-c"]), ("controlled", [])]


class Echo:
    """Another agent, which sends back what it receives: see sides/."""

    def __init__(self, command, *words, host):
        pipes = {"stdin": subprocess.PIPE, "stdout": subprocess.PIPE, "stderr": subprocess.DEVNULL}
        with host.inside():
            self.ran = subprocess.Popen([*command, *map(str, words)], **pipes)

    def described(self):
        lines = []
        while not lines or lines[-1] != b"a=end-of-candidates\n":
            lines.append(self.ran.stdout.readline())
            check(lines[-1], f"the other agent describes nothing after {lines[:-1]}")
        return b"".join(lines)

    def take(self, description):
        """Gives it the description that an event of a stun-ice has."""
        self.ran.stdin.write(description["line"].replace(";", "\n").encode() + b"\n")
        self.ran.stdin.flush()

    def restart(self):
        self.ran.stdin.write(b"restart\n")
        self.ran.stdin.flush()

    def __enter__(self):
        return self

    def __exit__(self, *_):
        self.ran.kill()
        self.ran.communicate()


def echo(one, all_of):
    """Sends as much as that, with no more under way than a socket has room for, and receives it again."""
    data, at, end = os.urandom(all_of), 0, time.monotonic() + 4 * PATIENCE
    while len(one.data) < all_of:
        check(time.monotonic() < end, f"{len(one.data)} of {at} bytes came back: {one.told()}")
        if at < all_of and at - len(one.data) < 30_000:
            one.write(data[at : at + 1200])
            at += 1200
        else:
            time.sleep(0.0005)
    check(one.data == data, "other bytes came back")


def with_other(programs, network, command, own, all_of, *words):
    """Connects to another agent, and has it send back. Returns the time that it took."""
    left, right = sides_of(network)
    with Echo(command, *words, host=right) as other, Side(programs["stun-ice"], *own, host=left) as one:
        description = other.described()
        one.write(description)
        other.take(one.wait_for("description"))
        began = time.monotonic()
        took = one.wait_for("connected")["at"] - began
        echo(one, all_of)
        one.ran.send_signal(signal.SIGTERM)
        one.end()
    return took


def restarted_with(programs, network, command, *words):
    """Connects to another agent in the role that the first word names, and restarts ICE, once begun by this side and
    once by the other. There is one pair, so that each `connected` is of another agent."""
    left, right = sides_of(network)
    with tempfile.TemporaryDirectory(prefix="stun-ice-") as folder, Echo(command, *words, host=right) as other, \
            Side(programs["stun-ice"], "-4", *(["-c"] if words[0] == "controlled" else []), "-p", f"{folder}/peer",
                 host=left) as one:
        def describe():
            pathlib.Path(folder, "new").write_bytes(other.described())
            pathlib.Path(folder, "new").rename(f"{folder}/peer")
        describe()
        other.take(one.wait_for("description"))
        one.wait_for("connected")
        for count, begins in ((2, one), (3, other)):
            if begins is one:
                one.ran.send_signal(signal.SIGUSR2)
                other.take(one.wait_for("description", count))
                describe()
            else:
                other.restart()
                describe()
                other.take(one.wait_for("description", count))
            began, pair = time.monotonic(), one.wait_for("connected", count)
            exchange_with(one, b"%d" % count)
            print(f"  {words[0]}, restarted by {'this side' if begins is one else 'it'}: "
                  f"{max(0, pair['at'] - began):.2f} s", flush=True)
        one.ran.send_signal(signal.SIGTERM)
        one.end()


def exchange_with(one, label):
    """A line that comes back. It is written until it has come."""
    for number in range(20):
        one.write(b"%s.%d\n" % (label, number))
        with contextlib.suppress(Wrong):
            one.received(b"%s.%d\n" % (label, number), 0.5)
            return
    raise Wrong(f"nothing comes back: {one.told()}")


def libnice_command(programs):
    status, flags = 1, ""
    if shutil.which("pkg-config"):
        status, flags, _ = run(["pkg-config", "--cflags", "--libs", "nice"])
    if status != 0 or not c_compiler():
        raise Skipped("it needs libnice with its headers (libnice-dev), pkg-config and a C compiler")
    program = f"{programs['folder']}/with_libnice"
    build(c_compiler(), "-Wall", "-Wextra", HERE / "sides/with_libnice.c", "-o", program, *flags.split())
    return [program]


def aioice_command(_):
    command = ["/usr/bin/python3", "-B", str(HERE / "sides/with_aioice.py")]
    if not os.path.exists(command[0]) or run([command[0], "-c", "import aioice"])[0] != 0:
        raise Skipped("it needs aioice, a package of Python")
    return command


def pion_command(programs):
    """Of Debian's package, which is found without modules."""
    go, program = shutil.which("go"), f"{programs['folder']}/with_pion"
    if not go or not os.path.exists("/usr/share/gocode/src/github.com/pion/ice/v2"):
        raise Skipped("it needs Go and pion/ice (golang-github-pion-ice.v2-dev)")
    own = {"GO111MODULE": "off", "GOPATH": "/usr/share/gocode", "GOCACHE": f"{programs['folder']}/go"}
    status, _, told = run([go, "build", "-o", program, HERE / "sides/with_pion.go"], 300, env={**os.environ, **own})
    check(status == 0, told[:2000])
    return [program]


def libnice(programs):
    """An agent of libnice in both roles, by regular and aggressive nomination, also if both or none control; 10 MB each
    way in each role."""
    command = libnice_command(programs)
    with Networks() as network:
        for number, (role, own) in enumerate(ROLES):
            for nomination in ("regular", "aggressive"):
                all_of = ALL if number < 2 and nomination == "regular" else SOME
                took = with_other(programs, network, command, own, all_of, role, nomination)
                print(f"  libnice {role}, {nomination}, ours {'controlling' if own else 'controlled'}: {took:.2f} s, "
                      f"{all_of} bytes each way", flush=True)


def aioice(programs):
    """An agent of aioice likewise."""
    command = aioice_command(programs)
    with Networks() as network:
        for number, (role, own) in enumerate(ROLES):
            all_of = ALL if number < 2 else SOME
            took = with_other(programs, network, command, own, all_of, role)
            print(f"  aioice {role}, ours {'controlling' if own else 'controlled'}: {took:.2f} s, {all_of} bytes each "
                  "way", flush=True)


def pion(programs):
    """An agent of pion likewise. It resolves no conflict of roles."""
    command = pion_command(programs)
    with Networks() as network:
        for role, own in ROLES[:2]:
            took = with_other(programs, network, command, own, SOME, role)
            print(f"  pion {role}: {took:.2f} s, {SOME} bytes each way", flush=True)
        for role in ("controlling", "controlled"):
            restarted_with(programs, network, command, role)


def restarted_libnice(programs):
    """ICE is restarted with an agent of libnice in either role, begun by each side."""
    command = libnice_command(programs)
    with Networks() as network:
        for role in ("controlling", "controlled"):
            restarted_with(programs, network, command, role, "regular")


def restarted_aioice(programs):
    """The same with agents of aioice."""
    command = aioice_command(programs)
    with Networks() as network:
        for role in ("controlling", "controlled"):
            restarted_with(programs, network, command, role)
