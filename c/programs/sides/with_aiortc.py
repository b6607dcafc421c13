"""A connection of aiortc, by which the page of ice_browsers.py is imitated: with_aiortc.py offers, or
answers. It prints its description as a JSON string, reads the other one, and prints each state of ICE."""
import asyncio
import json
import sys

from aiortc import RTCPeerConnection, RTCSessionDescription


async def main(offers):
    connection = RTCPeerConnection()

    @connection.on("iceconnectionstatechange")
    def changed():
        print(json.dumps(connection.iceConnectionState), flush=True)

    async def read(kind):
        line = await asyncio.get_running_loop().run_in_executor(None, sys.stdin.readline)
        await connection.setRemoteDescription(RTCSessionDescription(json.loads(line), kind))

    if offers:
        connection.createDataChannel("data")
        await connection.setLocalDescription(await connection.createOffer())
    else:
        await read("offer")
        await connection.setLocalDescription(await connection.createAnswer())
    print(json.dumps(connection.localDescription.sdp), flush=True)
    if offers:
        await read("answer")
    await asyncio.sleep(3600)


asyncio.run(main(sys.argv[1] == "offers"))
