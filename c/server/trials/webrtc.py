"""Trials of the pages for operators: their commands are run as written."""
import contextlib
import os
import pathlib
import re
import shutil
import socket
import subprocess

from harness import in_own_network
from operators import HERE, folder_of
from steps import Skipped, TOP, check, run, wait_until
from turn import Client, can_connect
from turn_servers import answers

INSTALLED = "/usr/local/share/doc/stun_types"
PATIENCE = 60  # seconds, for a block of commands


def blocks_of(page, most):
    """The blocks of commands, and of others, of a page of the guide, which has few lines: (language, text)."""
    text = (TOP / "docs/guide" / page).read_text()
    check(len(text.splitlines()) <= most, f"{page} has more than {most} lines")
    return re.findall(r"^```(\w+)\n(.*?)^```$", text, re.M | re.S)


class Shell:
    """A shell, as somebody has it who copies a page's commands one block after the other."""

    def __init__(self, folder, programs):
        tools = folder / "tools"
        tools.mkdir()
        (tools / "stun-server").symlink_to(programs["server"])
        environment = {**os.environ, "PATH": f"{tools}:{os.environ['PATH']}", "HOME": str(folder)}
        self.ran = subprocess.Popen(["bash"], cwd=folder, env=environment, text=True, stdin=subprocess.PIPE,
                                    stdout=subprocess.PIPE, stderr=subprocess.STDOUT, start_new_session=True)

    def do(self, commands):
        """Runs commands; what they print. The last has to succeed."""
        self.ran.stdin.write(f"{commands}\necho ended $?\n")
        self.ran.stdin.flush()
        lines = []
        while not (lines and re.fullmatch(r"ended \d+\n", lines[-1])):
            line = self.ran.stdout.readline()
            check(line, f"the shell has ended: {lines}")
            lines.append(line)
        check(lines[-1] == "ended 0\n", f"{commands}: {''.join(lines)}")
        return "".join(lines[:-1])

    def __enter__(self):
        return self

    def __exit__(self, *_):
        with contextlib.suppress(ProcessLookupError):
            os.killpg(self.ran.pid, 9)
        self.ran.wait()
        self.ran.stdin.close()
        self.ran.stdout.close()


def page(programs):
    """Each command of the page for WebRTC, with an address of this machine."""
    needed = ["openssl", "haproxy", "chromium", "turnutils_uclient", "turnutils_peer", "curl", "ip"]
    lacks = [it for it in needed if not shutil.which(it)]
    if lacks:
        raise Skipped(f"it needs {', '.join(lacks)}")
    in_own_network(page_there, programs)


def page_there(programs):
    for words in ("link add wan type veth peer name far", "address add 192.0.2.1/24 dev wan", "link set wan up",
                  "link set far up", "route add default dev wan"):  # (without a route Chromium sees no network)
        status, _, told = run(["ip", *words.split()])
        check(status == 0, f"ip {words}: {told}")
    found = blocks_of("WEBRTC.md", 80)
    commands = [text.replace(INSTALLED, str(HERE)) for language, text in found if language == "sh"]
    python, = [text for language, text in found if language == "python"]
    check(len(commands) == 5, f"the page has {len(commands)} blocks of commands")
    server, login, tls, first, last = commands
    with folder_of(programs) as folder, Shell(folder, programs) as shell:
        shell.do(server)
        wait_until(lambda: answers("192.0.2.1", 3478, socket.SOCK_STREAM), "the server doesn't answer")
        check(folder.joinpath("turn.secret").stat().st_mode & 0o077 == 0, "others can read the secret")
        shell.do(login)
        same_logins(shell, folder, python)
        shell.do(tls)
        wait_until(lambda: can_connect(5349), "haproxy doesn't listen")
        said = shell.do(first)
        check(re.search(r"candidate:.* 192\.0\.2\.1 \d+ typ relay", said), f"Chromium says {said}")
        check("403" in said.splitlines()[-1], f"turnutils_uclient says {said}")
        said = shell.do(last)
        sums = re.findall(r"tot_send_msgs=(\d+), tot_recv_msgs=(\d+)\n", said)
        check(sums.count(("5", "5")) >= 2 and said.count("Total lost packets 0 ") == 2, f"messages are lost: {said}")
        check('stun_server_turn_refusals_total{code="403"' in said, f"the counts are {said}")
        opened = re.findall(r"^event=allocation-opened .* user=\d+:alice client=(\S+) transport=(\w+)", said, re.M)
        check(("tcp" in {it[1] for it in opened}) and all(not it[0].endswith(":0") for it in opened), said)
        check("worker-died" not in (folder / "events").read_text(), "a worker has died")


def same_logins(shell, folder, python):
    """The shell and Python make the same password for a name, and the server takes it."""
    made = {}
    exec(python, made)
    name, password = shell.do('echo "$name" "$password"').split()
    secret = (folder / "turn.secret").read_text().strip()
    login = made["turn_login"](secret, "alice", int(name.split(":")[0]) - int(made["time"].time()))
    check(login["username"] == name and login["credential"] == password, f"{login}, and {name} {password}")
    address = type("Address", (), {"port": 3478})
    with Client(address, name, password, at="192.0.2.1") as client:
        client.allocate()
        client.refresh(0)
