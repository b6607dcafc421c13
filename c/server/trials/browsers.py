"""Trials with data channels between browsers, relayed."""
import collections
import contextlib
import http.server
import json
import os
import pathlib
import queue
import shutil
import signal
import socket
import subprocess
import threading
import urllib.parse

from hosts import SERVER
from steps import Skipped, Wrong, check
from turn_servers import Settings

PAGE = pathlib.Path(__file__).resolve().parent / "pages/relayed.html"
LENGTH = 10_000_000
PATIENCE = 90  # seconds
PREFERENCES = {
    "app.update.enabled": False,
    "browser.shell.checkDefaultBrowser": False,
    "datareporting.policy.dataSubmissionEnabled": False,
    "network.captive-portal-service.enabled": False,
    "network.connectivity-service.enabled": False,
    "startup.homepage_welcome_url": "",
    "toolkit.telemetry.reportingpolicy.firstRun": False,
}


def chromium(folder, url):
    """The command that shows a page in Chromium."""
    return ["chromium", "--headless=new", "--no-sandbox", "--disable-gpu", "--no-first-run", "--disable-sync",
            "--disable-background-networking", "--disable-component-update", "--disable-dev-shm-usage",
            f"--user-data-dir={folder}", url]


def firefox(folder, url):
    """The command that shows a page in Firefox."""
    lines = [f"user_pref({json.dumps(name)}, {json.dumps(value)});\n" for name, value in PREFERENCES.items()]
    (folder / "user.js").write_text("".join(lines))
    program = "firefox-esr" if shutil.which("firefox-esr") else "firefox"
    return [program, "--headless", "--no-remote", "--profile", str(folder), url]


COMMANDS = {"Chromium": chromium, "Firefox": firefox}
PROGRAMS = {"Chromium": ["chromium"], "Firefox": ["firefox-esr", "firefox"]}


class Meeting:
    """A connection of two sides, left and right: what they send each other, and their results."""

    def __init__(self):
        self.data = os.urandom(LENGTH)
        self.descriptions = {"left": queue.Queue(), "right": queue.Queue()}
        self.results = queue.Queue()  # (side, what, value)
        self.over = threading.Event()

    def get(self, name, side):
        if name == "description":
            return self.descriptions["right" if side == "left" else "left"].get(timeout=PATIENCE)
        if name == "end":
            self.over.wait(PATIENCE)
            return b""
        return self.data

    def post(self, name, side, value):
        if name == "description":
            self.descriptions[side].put(value)
        else:
            self.results.put((side, name, value))


class Handler(http.server.BaseHTTPRequestHandler):
    protocol_version = "HTTP/1.1"

    def do_GET(self):
        name, words = self.asked()
        try:
            if name == "relayed.html":
                self.answer(200, PAGE.read_bytes(), "text/html; charset=utf-8")
            elif name == "task":
                self.answer(200, self.server.tasks[words["page"]].get(timeout=PATIENCE))
            else:
                self.answer(200, self.server.meetings[words["number"]].get(name, words["side"]))
        except queue.Empty:
            self.answer(504, b"")
        except KeyError:
            self.answer(404, b"")

    def do_POST(self):
        name, words = self.asked()
        value = self.rfile.read(int(self.headers["Content-Length"]))
        self.server.meetings[words["number"]].post(name, words["side"], value)
        self.answer(200, b"")

    def asked(self):
        url = urllib.parse.urlsplit(self.path)
        return url.path[1:], dict(urllib.parse.parse_qsl(url.query))

    def answer(self, status, body, kind="application/octet-stream"):
        self.send_response(status)
        self.send_header("Content-Type", kind)
        self.send_header("Content-Length", str(len(body)))
        self.end_headers()
        self.wfile.write(body)

    def log_message(self, *_):
        pass


class Pages(http.server.ThreadingHTTPServer):
    """Serves the page, which each browser shows on both clients' hosts."""
    daemon_threads = True

    def __init__(self, bench):
        self.tasks, self.meetings = collections.defaultdict(queue.Queue), {}
        self.browsers = contextlib.ExitStack()
        self.folder = bench.new_folder()
        with bench.hosts.server.inside():
            super().__init__((SERVER[0], 0), Handler)
        self.thread = threading.Thread(target=self.serve_forever, daemon=True)
        self.thread.start()
        for kind, programs in PROGRAMS.items():
            for side, host in [("left", bench.hosts.left), ("right", bench.hosts.right)]:
                if any(map(shutil.which, programs)):
                    self.browsers.enter_context(self.showing(host, kind, side))

    @contextlib.contextmanager
    def showing(self, host, kind, side):
        """Shows the page in a browser. Its processes are a namespace's, and end with the first of them."""
        profile = self.folder / f"{side}-{kind}"
        profile.mkdir()
        url = f"http://{SERVER[0]}:{self.server_port}/relayed.html?page={profile.name}"
        words = ["unshare", "--pid", "--fork", "--kill-child", "--mount-proc", *COMMANDS[kind](profile, url)]
        environment = {**os.environ, "HOME": str(profile), "XDG_RUNTIME_DIR": str(profile)}
        with open(self.folder / f"{profile.name}.log", "w") as log, host.inside():
            ran = subprocess.Popen(words, stdin=subprocess.DEVNULL, stdout=log, stderr=log, env=environment)
        try:
            yield
        finally:
            for first in pathlib.Path(f"/proc/{ran.pid}/task/{ran.pid}/children").read_text().split():
                os.kill(int(first), signal.SIGKILL)
            ran.wait()

    def complaints(self, left, right):
        """The ends of what two browsers print."""
        logs = [self.folder / f"left-{left}.log", self.folder / f"right-{right}.log"]
        return [log.read_text(errors="replace")[-300:] for log in logs]

    def close(self):
        self.browsers.close()
        self.shutdown()
        self.thread.join()
        self.server_close()


def relayed(bench, left, right, transport="udp", six=False):
    """10 MB go from one browser to another, and only relayed candidates are used."""
    for kind in (left, right):
        if not any(map(shutil.which, PROGRAMS[kind])):
            raise Skipped(f"it needs {' or '.join(PROGRAMS[kind])}")
    settings = Settings(timed=True)
    pages, meeting = bench.once(Pages), Meeting()
    number = str(len(pages.meetings))
    pages.meetings[number] = meeting
    with bench.server(settings) as started:
        name, password = settings.credentials()
        server = f"[{SERVER[1]}]" if six else SERVER[0]
        task = {"urls": f"turn:{server}:{started.port}?transport={transport}", "username": name,
                "credential": password, "number": number, "length": LENGTH}
        for side, kind in [("left", left), ("right", right)]:
            pages.tasks[f"{side}-{kind}"].put(json.dumps({**task, "side": side}).encode())
        try:
            results = {}
            while len(results) < 3:
                side, what, value = meeting.results.get(timeout=PATIENCE)
                if what == "failure":
                    raise Wrong(f"{side}: {value.decode()}")
                results[side, what] = value
        except queue.Empty:
            told = pages.complaints(left, right)
            raise Wrong(f"after {PATIENCE} s there is {sorted(results)}: {told}") from None
        finally:
            meeting.over.set()
    check(results["right", "data"] == meeting.data, "other data arrived")
    for side in ("left", "right"):
        pairs = json.loads(results[side, "result"])
        check(pairs and all(pair == ["relay", "relay"] for pair in pairs), f"{side} uses {pairs}")
