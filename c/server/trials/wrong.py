"""Trials of settings that are wrong: the server names the file, the line, what is wrong and what would be right."""
import signal

from harness import free_port
from operators import folder_of, write
from steps import check, run
from turn import turn_server

# what is given, and what of it is named
ARGUMENTS = [("foo=1", "no setting"), ("rate", "NAME=VALUE"), ("rate=", "0 to 1000000"), ("rate=-1", "0 to 1000000"),
             ("turn=2", "0 to 1"), ("realm=", "no value"), ("deny=10.0.0.1/8", "10.0.0.0/8 is right"),
             ("deny=2001:db8::1/33", "2001:db8::/33 is right"), ("allow=10.0.0.0/33", "0 to 32"),
             ("deny=10.0.0.1:0", "1 to 65535"), ("deny=[::1]", "[::1]:80"), ("relay-address=host", "no IP address"),
             ("ports=5-4", "LOW-HIGH"), ("realm=" + "a" * 129, "128"), ("users=", "no value"),
             ("packet-rate=1000001", "0 to 1000000"), ("user-packet-rate=x", "0 to 1000000"), ("log-json=2", "0 to 1"),
             ("reservations=10001", "0 to 10000"), ("dont-fragment=2", "0 to 1"), ("icmp=on", "0 to 1"),
             ("header-fields=-1", "0 to 1"),
             ("log-rate=-1", "0 to 1000000"), ("allocation-log=log", "no off, on or syslog"),
             ("proxy=10.0.0.1/8", "10.0.0.0/8 is right"), ("proxy=10.0.0.1:80", "ports after a prefix"),
             ("proxy=", "no value"), ("kernel=", "no value"), ("kernel=an-interface-too", "at most 15 characters"), ("drain-seconds=864001", "0 to 864000"), ("nonce-secret=", "no value"),
             *((f"alternate={it}", "[2001:db8::7]:3478") for it in
               ("192.0.2.7", "192.0.2.7:0", "192.0.2.7:65536", "2001:db8::7:3478", "[192.0.2.7]", "[2001:db8::7",
                "[2001:db8::7]3478", ":3478", "host:3478", "[]:1"))]
LINES = [("foo 1", "foo 1: no setting"), ("deny 10.0.0.1/8", "deny 10.0.0.1/8: the address has bits"),
         ("realm a#b", "realm a#b: a # in a value"), ("rate", "rate: no value"), ("rate 1 2", "more than a value"),
         ("lifetime 1", "lifetime 1: no number from 600 to 86400"), ("realm b", "realm b: one too many; 1 "),
         ("relay-address 127.0.0.2", "the second of its family, after 127.0.0.1; one is right"),
         ("external-address ::2", "the second of its family, after ::1"), ("#" * 300, "more than 254 bytes"),
         ("allocation-log log", "allocation-log log: no off, on or syslog, and no path"),
         ("packet-rate 1e3", "packet-rate 1e3: no number from 0 to 1000000"), ("log-json yes", "0 to 1"),
         ("alternate 192.0.2.7", "alternate 192.0.2.7: no ADDRESS:PORT"), ("proxy host", "proxy host: no IP address"),
         ("kernel an-interface-too", "kernel an-interface-too: no name of an interface")]
FIRST = "realm a # the first\nrelay-address 127.0.0.1\nexternal-address ::1\n"
USERS = [("alice", "without a password; NAME PASSWORD"), ("alice md5:" + "0" * 30, "md5: with 30 characters; 32 "),
         ("alice md5:" + "g" * 32, "32 hexadecimal digits"), ("alice sha256:" + "0" * 32, "32 characters; 64 "),
         ("bob other", "in line 1 too"), ("a" * 3000, "more than 2046 bytes"), ("\udcff word", "UTF-8")]
SECRETS = [("s" * 257, "257 characters; at most 256"), ("a\nb\nc\nd\ne", "5: a secret too many; 4 ")]
WHOLE = [("ports 3000-4000", "127.0.0.1 3478", ":5: ports 3000-4000: 3478, at which the server listens"),
         ("", "127.0.0.1 50000", "ports 49152-65535: 50000, at which"), ("", "0.0.0.0 3478", "relay-address"),
         ("external-address 2001:db8::1", "127.0.0.1 3478", "no relay-address"),
         ("reservations 1", "-j 2 127.0.0.1 3478", "reservations are known to one process; -j 1 is needed"),
         ("allocation-log /none/log", "127.0.0.1 3478", ":5: allocation-log /none/log: No such file or directory; a "),
         ("allocation-log /dev", "127.0.0.1 3478", ":5: allocation-log /dev: Is a directory; a file ")]


def ended_by(programs, wanted, told_of, *words):
    """A server ends at once, with a status, and says something on one line; with --check it does the same."""
    for check_only in ((), ("--check",)):
        status, out, told = run([programs["server"], *check_only, *words])
        right = status == wanted and out == "" and told_of in told and told.count("\n") == 1
        check(right and told.startswith("stun-server: "), f"{words}: status {status}: {out}{told}")


def named(programs):
    """What is wrong with arguments, files and what they have together is named, and nothing begins."""
    at = ["127.0.0.1", free_port(["127.0.0.1"])]
    for given, told in ARGUMENTS:
        ended_by(programs, 64, told, "-o", given, *at)
        ended_by(programs, 64, f"-o {given}: ", "-o", given, *at)
    with folder_of(programs) as folder:
        file, users = folder / "conf", folder / "users"
        for line, told in LINES:
            write(file, FIRST + line + "\n")
            ended_by(programs, 78, f"{file}:4: ", "-c", str(file), *at)
            ended_by(programs, 78, told, "-c", str(file), *at)
        for name, first, texts in (("users", "bob word\n", USERS), ("secret", "", SECRETS)):
            for text, told in texts:
                users.write_text(first + text + "\n", errors="surrogateescape")
                words = ["--turn", "-o", "realm=a", "-o", f"{name}={users}", *at]
                line = 2 if name == "users" else 5 if "\n" in text else 1
                ended_by(programs, 78, f"{users}:{line}: ", *words)
                ended_by(programs, 78, told, *words)
        write(users, "bob word\n")
        for line, where, told in WHOLE:
            write(file, f"turn 1\n\nrealm a\nusers {users}\n{line}\n")
            ended_by(programs, 78, told, "-c", str(file), *where.split())
        write(file, f"turn 1\nrealm a\nusers {users}\n")
        users.unlink()
        ended_by(programs, 78, f"{users}: No such file", "-c", str(file), *at)
        ended_by(programs, 78, f"{folder}/none: No such file", "-c", f"{folder}/none", *at)


def checked(programs):
    """--check reads all and ends, also beside a server that runs with the same settings, and makes no log; a # that
    begins no comment may be in an argument."""
    with turn_server(programs, "-o", "realm=a#b") as server:
        log = server.folder / "log"
        words = ["-c", str(server.folder / "stun-server.conf"), "-o", "realm=a#b", "127.0.0.1", server.port]
        for where in ("off", "on", log):
            status, out, told = run([programs["server"], "--check", "-o", f"allocation-log={where}", *words])
            check((status, out, told) == (0, "", ""), f"status {status}: {out}{told}")
        check(not log.exists(), "it makes a log")
        server.end()


def named_again(programs):
    """At SIGHUP the same is an event."""
    with turn_server(programs) as server:
        file = server.folder / "stun-server.conf"
        write(file, "turn 1\nrate -1\n")
        write(server.folder / "users", "user pass\nalice md5:0\n")
        server.counts(signal.SIGHUP)
        for event, path, told in (("settings", file, "rate_-1:_no_number_from_0_to_1000000"),
                                  ("users", server.folder / "users", "md5:_with_1_characters;_32_")):
            refused = server.wait_for(f"{event}-refused")
            right = (refused["file"], refused["line"]) == (str(path), "2") and told in refused["reason"]
            check(right, f"it says {refused}")
        server.end()
