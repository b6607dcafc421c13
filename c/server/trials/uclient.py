"""Trials with the clients of coturn."""
import contextlib
import re
import shutil
import subprocess

from hosts import RIGHT, SERVER
from steps import Skipped, check
from turn_servers import Settings

PEER_PORT = 3480
CLIENTS, MESSAGES, LENGTH, INTERVAL = 10, 500, 180, 5  # bytes, milliseconds
PATIENCE = 120


@contextlib.contextmanager
def echoing(host):
    """Runs turnutils_peer on a host: it echoes."""
    words = ["turnutils_peer", "-p", str(PEER_PORT)]
    for address in RIGHT:
        words += ["-L", address]
    with host.inside():
        ran = subprocess.Popen(words, stdin=subprocess.DEVNULL, stdout=subprocess.DEVNULL,
                               stderr=subprocess.DEVNULL)
    try:
        yield
        check(ran.poll() is None, f"turnutils_peer ended with status {ran.returncode}")
    finally:
        ran.kill()
        ran.wait()


def expect_echoes(ran):
    """Waits for turnutils_uclient, which has to receive each message that it sends. (It compares their
    numbers and lengths.)"""
    said, _ = ran.communicate(timeout=PATIENCE)
    total = CLIENTS * MESSAGES  # (from client to client it sends more)
    sums = re.findall(r"tot_send_msgs=(\d+), tot_recv_msgs=(\d+)", said)
    lost = re.findall(r"Total lost packets (\d+).*, total send dropped (\d+)", said)
    complaints = re.findall(r".*(?:ERROR|[Ww]rong).*", said)
    check(not complaints, f"it complains: {complaints[:3]}")
    sent, received = map(int, sums[-1]) if sums else (0, 0)
    right = ran.returncode == 0 and sent == received >= total and lost == [("0", "0")]
    told = "" if ran.returncode == 0 else said.strip().splitlines()[-1:]
    check(right, f"status {ran.returncode}, messages {sums[-1:]} of {total}, lost {lost} {told}")


def echoed(bench, *flags):
    """turnutils_uclient sends messages through the server to turnutils_peer and receives them again, over
    IPv4 and IPv6 at once."""
    if not shutil.which("turnutils_uclient") or not shutil.which("turnutils_peer"):
        raise Skipped("it needs turnutils_uclient and turnutils_peer, of coturn")
    # (its channels are random ones of RFC 5766, and without -c each of its clients reserves a port)
    settings = Settings(old_channels="-s" not in flags, extensions=True)
    name, password = settings.credentials()
    both = []
    with bench.server(settings) as server, echoing(bench.hosts.right):
        common = ["turnutils_uclient", *flags, "-m", CLIENTS, "-n", MESSAGES, "-l", LENGTH,
                  "-z", INTERVAL, "-u", name, "-w", password, "-p", server.port, "-r", PEER_PORT]
        try:
            for words in [["-e", RIGHT[0], SERVER[0]], ["-x", "-e", RIGHT[1], SERVER[1]]]:
                with bench.hosts.left.inside():
                    both.append(subprocess.Popen(
                        list(map(str, common + words)), text=True, stdin=subprocess.DEVNULL,
                        stdout=subprocess.PIPE, stderr=subprocess.STDOUT))
            for ran in both:
                expect_echoes(ran)
        finally:
            for ran in both:
                ran.kill()
                ran.communicate()
