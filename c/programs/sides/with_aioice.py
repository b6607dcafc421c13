"""An agent of aioice that sends back what it receives: with_aioice.py ROLE. It prints its
description, up to a=end-of-candidates, and reads the other's likewise. A second one restarts ICE,
and so does the line "restart": aioice knows no restart, so it makes another connection, with
another socket, and prints that one's description."""
import asyncio
import sys

from aioice import Candidate, Connection


async def described(role):
    """A connection, whose description is printed."""
    connection = Connection(role == "controlling", stun_server=None)
    await connection.gather_candidates()
    lines = [f"ice-ufrag:{connection.local_username}", f"ice-pwd:{connection.local_password}"]
    lines += [f"candidate:{it.to_sdp()}" for it in connection.local_candidates]
    print("".join(f"a={line}\n" for line in [*lines, "end-of-candidates"]), end="", flush=True)
    return connection


async def describe(connection, lines):
    """Gives a connection the other's description."""
    for line in lines:
        name, _, value = line.removeprefix("a=").partition(":")
        if name == "ice-ufrag":
            connection.remote_username = value
        elif name == "ice-pwd":
            connection.remote_password = value
        elif name == "candidate":
            await connection.add_remote_candidate(Candidate.from_sdp(value))
    await connection.add_remote_candidate(None)


async def echo(connection):
    await connection.connect()
    print("connected", file=sys.stderr, flush=True)
    while True:
        if data := await connection.recv():
            await connection.send(data)


async def main(role):
    connection, lines, echoing = await described(role), [], []
    while line := await asyncio.get_running_loop().run_in_executor(None, sys.stdin.readline):
        if line == "restart\n":
            connection = await described(role)
        elif line.strip() == "a=end-of-candidates":
            connection = connection or await described(role)
            await describe(connection, lines)
            echoing.append(asyncio.create_task(echo(connection)))
            connection, lines = None, []
        else:
            lines.append(line.strip())
    await asyncio.gather(*echoing)


asyncio.run(main(sys.argv[1]))
