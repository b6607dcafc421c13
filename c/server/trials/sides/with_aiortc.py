"""One side of a session of aiortc, relayed: see session.py."""
import asyncio
import functools

import session
from aioice import Connection, TransportPolicy
from aiortc import (RTCConfiguration, RTCIceServer, RTCPeerConnection, RTCSessionDescription,
                    rtcicetransport)

# aiortc doesn't have iceTransportPolicy
rtcicetransport.Connection = functools.partial(Connection, transport_policy=TransportPolicy.RELAY)


def description_of(connection):
    return {"type": connection.localDescription.type, "sdp": connection.localDescription.sdp}


async def main(arguments):
    url = f"turn:{arguments.server}:{arguments.port}?transport={arguments.transport}"
    server = RTCIceServer(url, username=arguments.name, credential=arguments.password)
    connection = RTCPeerConnection(RTCConfiguration([server]))
    received, opened = asyncio.Queue(), asyncio.get_running_loop().create_future()

    def use(channel):
        channel.on("message", received.put_nowait)
        channel.on("open", lambda: opened.set_result(channel))
        if channel.readyState == "open":
            opened.set_result(channel)

    if arguments.offers:
        use(connection.createDataChannel("messages"))
        await connection.setLocalDescription(await connection.createOffer())
        session.describe(description_of(connection))
        other = await session.described()
        await connection.setRemoteDescription(RTCSessionDescription(**other))
    else:
        connection.on("datachannel", use)
        other = await session.described()
        await connection.setRemoteDescription(RTCSessionDescription(**other))
        await connection.setLocalDescription(await connection.createAnswer())
        session.describe(description_of(connection))
    channel = await asyncio.wait_for(opened, session.PATIENCE * arguments.speed)

    async def send(message):
        channel.send(message)
    await session.talk(arguments, send, received.get)
    await connection.close()


session.run(main)
