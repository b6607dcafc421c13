"""Trials of the server's arguments and addresses."""
from harness import Server
from steps import check, run


def wrong_arguments(programs):
    """Ports are decimal numbers from 1 to 65535; wrong arguments print the usage."""
    ports = ["70000", "65536", "0", "12x", "", "+5", " 5", "5 ", "-5", "0x50", "9" * 30]
    commands = [[programs["server"], *options, "127.0.0.1", port]
                for options in ([], ["-t"]) for port in ports]
    words = [[], ["127.0.0.1"], ["127.0.0.1", "1", "::1"], ["-x", "::1", "1"], ["-j", "0", "::1", "1"],
             ["-j", "+2", "::1", "1"], ["-j", "33", "::1", "1", "127.0.0.1", "1"],
             ["-U", "", "::1", "1"], ["-c", "", "::1", "1"],
             *(["-m", where, "::1", "1"] for where in ("", "0", "70000", "reports")),
             ["example.org", "1"], ["010.0.0.1", "1"]]
    for command in commands + [[programs["server"], *options] for options in words]:
        status, out, told = run(command)
        right = status == 64 and out == "" and told.startswith("usage: ")
        check(right, f"{command}: status {status}: {out}{told}")
    status, out, _ = run([programs["server"], "-h"])
    check(status == 0 and out.startswith("usage: ") and "max-age" in out, f"-h prints {out}")
    status, out, _ = run([programs["server"], "-V"])
    check(status == 0 and out.startswith("stun-server of stun_types"), f"-V prints {out}")


def taken_address(programs):
    """A port that is another server's, and an address that isn't this machine's."""
    with Server(programs["server"], "-t") as server:
        for words in [["127.0.0.1", server.port], ["192.0.2.1", server.port]]:
            status, out, told = run([programs["server"], *words])
            check(status == 3 and out == "" and words[0] in told, f"status {status}: {out}{told}")
