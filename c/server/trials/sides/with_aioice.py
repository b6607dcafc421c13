"""One side of a session of aioice, relayed: see session.py."""
import session
from aioice import Candidate, Connection, TransportPolicy


async def main(arguments):
    connection = Connection(
        arguments.offers, transport_policy=TransportPolicy.RELAY,
        turn_server=(arguments.server, arguments.port), turn_transport=arguments.transport,
        turn_username=arguments.name, turn_password=arguments.password)
    await connection.gather_candidates()
    session.describe({
        "name": connection.local_username, "password": connection.local_password,
        "candidates": [candidate.to_sdp() for candidate in connection.local_candidates]})
    other = await session.described()
    connection.remote_username, connection.remote_password = other["name"], other["password"]
    for candidate in other["candidates"]:
        await connection.add_remote_candidate(Candidate.from_sdp(candidate))
    await connection.add_remote_candidate(None)
    await connection.connect()
    await session.talk(arguments, connection.send, connection.recv)
    await connection.close()


session.run(main)
