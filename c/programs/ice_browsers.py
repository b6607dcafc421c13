"""Trials of stun-ice with browsers: a page of Chromium or Firefox has an RTCPeerConnection, whose other side is a
stun-ice. The page asks a web server of the trial for the other description, and reports its states to it. What stun-ice
receives then is the page's DTLS handshake, which nobody answers: ICE is tried, and nothing above it."""
import contextlib
import functools
import http.server
import json
import os
import pathlib
import queue
import shutil
import signal
import subprocess
import tempfile
import threading
import time

from ice_networks import Networks
from ice_trials import HERE, PATIENCE, Side, sides_of
from steps import Skipped, check, run

KEPT, KEPT_LONG = 6, 125  # seconds that a connection is kept; a check of consent comes every 4 to 6
CONNECTED = {"connected", "completed"}  # states of a page
is_long = False  # with --long each is kept longer, and tried in both roles
FINGERPRINT = ":".join(["AB"] * 32)  # of a certificate that nobody has
DESCRIPTION = """v=0
o=- 1 {version} IN IP4 127.0.0.1
s=-
t=0 0
a=group:BUNDLE 0
m=application 9 UDP/DTLS/SCTP webrtc-datachannel
c=IN IP4 0.0.0.0
a=mid:0
a=setup:{setup}
a=fingerprint:sha-256 {fingerprint}
a=sctp-port:5000
"""
PAGE = """<!doctype html><title>stun-ice</title><script>
const post = (path, text) => fetch(path, {method: "POST", body: text}).then(it => it.text());
const counts = async connection => {
    for (const it of (await connection.getStats()).values()) {
        if (it.type == "candidate-pair" && (it.nominated || it.selected)) return it;
    }
};
// Makes a description, or takes the other side's first and answers it.
const describe = async (connection, offers) => {
    if (!offers) await connection.setRemoteDescription({type: "offer", sdp: await post("/theirs", "")});
    const gathered = new Promise(done => connection.onicegatheringstatechange =
        () => connection.iceGatheringState == "complete" && done());
    await connection.setLocalDescription();
    await gathered;
    await post("/own", connection.localDescription.sdp);
    if (offers) await connection.setRemoteDescription({type: "answer", sdp: await post("/theirs", "")});
};
(async () => {
    const connection = new RTCPeerConnection(), offers = location.hash == "#offers";
    connection.oniceconnectionstatechange = () => post("/state", connection.iceConnectionState);
    if (offers) connection.createDataChannel("data");
    await describe(connection, offers);
    for (;;) {
        await new Promise(done => setTimeout(done, 1000));
        const order = await post("/counts", JSON.stringify(await counts(connection) || {}));
        if (order == "restart") connection.restartIce();
        if (order) await describe(connection, order == "restart");
    }
})().catch(why => post("/failed", String(why)));
</script>"""


class Page:
    """A browser with the page, and the web server that the page talks to, on a host."""

    def __init__(self, command, profile, offers, host):
        self.told, self.theirs, self.states, self.counts, self.order = queue.Queue(), queue.Queue(), [], {}, ""
        page = self

        class Handler(http.server.BaseHTTPRequestHandler):
            def do_GET(self):
                self.answer(PAGE)

            def do_POST(self):
                text = self.rfile.read(int(self.headers["Content-Length"])).decode()
                self.answer(page.take(self.path, text) or "")

            def answer(self, text):
                self.send_response(200)
                self.send_header("Content-Type", "text/html")
                self.end_headers()
                with contextlib.suppress(BrokenPipeError, ConnectionResetError):
                    self.wfile.write(text.encode())

            def log_message(self, *_):
                pass

        self.folder = tempfile.TemporaryDirectory(prefix="browser-", ignore_cleanup_errors=True)
        with host.inside():
            self.server = http.server.ThreadingHTTPServer(("127.0.0.1", 0), Handler)
            url = f"http://127.0.0.1:{self.server.server_port}/#{'offers' if offers else 'answers'}"
            self.ran = subprocess.Popen([*command, profile.format(self.folder.name), url], start_new_session=True,
                                        env={**os.environ, "HOME": self.folder.name},
                                        **dict.fromkeys(["stdin", "stdout", "stderr"], subprocess.DEVNULL))
        threading.Thread(target=self.server.serve_forever, daemon=True).start()

    def take(self, path, text):
        """What the page reports, or asks for."""
        if path == "/theirs":
            return self.theirs.get(timeout=PATIENCE)
        if path == "/state":
            self.states.append(text)
        elif path == "/counts":
            self.counts = json.loads(text)
            order, self.order = self.order, ""
            return order
        else:
            self.told.put((path, text))
        return ""

    def own(self):
        """The page's description."""
        try:
            path, text = self.told.get(timeout=PATIENCE)
        except queue.Empty:
            raise Skipped("the browser loads no page here") from None
        check(path == "/own", f"the page says {text}")
        return text

    def wait_until_connected(self):
        end = time.monotonic() + PATIENCE
        while not CONNECTED & set(self.states):
            check(time.monotonic() < end, f"the states are {self.states}")
            time.sleep(0.05)

    def answer(self, description):
        self.theirs.put(description)

    def __enter__(self):
        return self

    def __exit__(self, *_):
        with contextlib.suppress(ProcessLookupError):
            os.killpg(self.ran.pid, signal.SIGKILL)
        self.ran.wait()
        self.server.shutdown()
        self.server.server_close()
        self.folder.cleanup()


class Imitation(Page):
    """A connection of aiortc, instead of a page's."""

    def __init__(self, offers, host):
        self.states, self.counts, self.written = [], {}, queue.Queue()
        command = ["/usr/bin/python3", "-B", HERE / "sides/with_aiortc.py", "offers" if offers else "answers"]
        with host.inside():
            self.ran = subprocess.Popen(command, stdin=subprocess.PIPE, stdout=subprocess.PIPE, text=True,
                                        stderr=subprocess.DEVNULL)
        threading.Thread(target=self.read, daemon=True).start()

    def read(self):
        for line in self.ran.stdout:
            text = json.loads(line)
            if "\n" in text:
                self.written.put(text)
            else:
                self.states.append(text)

    def own(self):
        return self.written.get(timeout=PATIENCE)

    def answer(self, description):
        self.ran.stdin.write(json.dumps(description) + "\n")
        self.ran.stdin.flush()

    def __exit__(self, *_):
        self.ran.kill()
        self.ran.wait()
        self.ran.stdin.close()


def connected_to(programs, page_on, offers, kept):
    """Connects a page, which controls if it offers, and keeps the connection. Returns what the page has counted."""
    with contextlib.ExitStack() as all_of:
        left, right = sides_of(all_of.enter_context(Networks()))
        folder = all_of.enter_context(tempfile.TemporaryDirectory(prefix="stun-ice-"))
        page = all_of.enter_context(page_on(offers, right))
        words = ["-4", *([] if offers else ["-c"]), "-p", f"{folder}/peer"]
        one = all_of.enter_context(Side(programs["stun-ice"], *words, host=left))

        def answer(version, setup):
            lines = one.wait_for("description", version)["line"].replace(";", "\n") + "\n"
            page.answer(DESCRIPTION.format(version=version, setup=setup, fingerprint=FINGERPRINT) + lines)

        def pass_on():
            pathlib.Path(folder, "new").write_text(page.own(), newline="")
            pathlib.Path(folder, "new").rename(f"{folder}/peer")

        def connect(version, offers):
            """The page offers, or stun-ice."""
            for step in (pass_on, lambda: answer(version, "passive")) if offers else (
                    lambda: answer(version, "actpass"), pass_on):
                step()
            one.wait_for("connected", version)
            page.wait_until_connected()

        connect(1, offers)
        time.sleep(kept)
        if is_long and page_on is not Imitation:
            for version, order in ((2, "restart"), (3, "answer")):
                page.order = order
                if order == "answer":
                    one.ran.send_signal(signal.SIGUSR2)
                connect(version, order == "restart")
                time.sleep(KEPT)
        check(set(page.states) <= {"checking", *CONNECTED}, f"the page's states are {page.states}")
        check(not one.found("consent-lost") and one.ran.poll() is None, one.told())
        one.received(b"\x16\xfe", 1)  # the page's handshake: it may send
        one.ran.send_signal(signal.SIGTERM)
        one.end()
    return page.counts


def tried(programs, name, page_on):
    kept = KEPT_LONG if is_long else KEPT
    for offers in (True, False) if is_long else (True,):
        counts = connected_to(programs, page_on, offers, kept)
        names = ("requestsSent", "consentRequestsSent", "responsesReceived", "requestsReceived", "responsesSent")
        said = ", ".join(f"{it} {counts[it]}" for it in names if it in counts)
        print(f"  {name} {'controlling' if offers else 'controlled'}, {kept} s: {said or 'no counts'}", flush=True)


def chromium(programs):
    """A page of Chromium, which controls; with --long, it is controlled, too."""
    browser = next(filter(None, map(shutil.which, ("chromium", "chromium-browser", "google-chrome"))), None)
    if not browser:
        raise Skipped("it needs chromium")
    command = [browser, "--headless", "--no-sandbox", "--disable-gpu", "--no-first-run", "--disable-dev-shm-usage"]
    tried(programs, "Chromium", functools.partial(Page, command, "--user-data-dir={}"))


def firefox(programs):
    """A page of Firefox likewise."""
    browser = next(filter(None, map(shutil.which, ("firefox-esr", "firefox"))), None)
    if not browser:
        raise Skipped("it needs firefox")
    tried(programs, "Firefox", functools.partial(Page, [browser, "--headless", "--no-remote", "--profile"], "{}"))


def aiortc(programs):
    """A connection of aiortc likewise."""
    if not os.path.exists("/usr/bin/python3") or run(["/usr/bin/python3", "-c", "import aiortc"], 60)[0] != 0:
        raise Skipped("it needs aiortc, a package of Python")
    tried(programs, "aiortc", Imitation)
