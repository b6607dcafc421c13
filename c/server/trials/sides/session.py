"""One side of a session between two clients of a TURN server: what the sides in Python share.

SIDE offers|answers SERVER PORT udp|tcp NAME PASSWORD SECONDS SPEED

A side prints its description in one line, and reads that of the other. Then the side that offers sends
numbered messages for SECONDS, and the other sends each back: none may be missing or changed. The clock of a
side in Python runs SPEED times as fast, so that it refreshes its allocation and its channel early; its
retransmissions to the server keep their real time. At the end the side that offers prints how many messages
came back, and in Python how often it refreshed its allocation and bound a channel.
"""
import asyncio
import collections
import json
import os
import selectors
import sys
import time
import types

import aioice

PATIENCE = 30  # seconds
END = b"end"
answered = collections.Counter()  # requests to the server, by their methods


class Arguments:
    def __init__(self):
        words = sys.argv[1:]
        self.offers = words[0] == "offers"
        self.server, self.port, self.transport = words[1], int(words[2]), words[3]
        self.name, self.password = words[4:6]
        self.seconds, self.speed = int(words[6]), int(words[7])


class FastSelector(selectors.DefaultSelector):
    """Waits for times of a fast clock."""

    def __init__(self, speed):
        super().__init__()
        self.speed = speed

    def select(self, timeout=None):
        return super().select(timeout and timeout / self.speed)


class FastLoop(asyncio.SelectorEventLoop):
    """An event loop whose clock runs fast."""

    def __init__(self, speed):
        self.speed = speed
        super().__init__(FastSelector(speed))

    def time(self):
        return super().time() * self.speed


def hasten(speed):
    """Has aioice's clocks run fast, but not those of its retransmissions."""
    aioice.turn.time = types.SimpleNamespace(time=lambda: time.time() * speed)
    aioice.stun.RETRY_RTO *= speed
    asyncio.set_event_loop(FastLoop(speed))


def count_requests(client):
    """Has a class of clients count the requests that the server answers with success."""
    ask = client.request_with_retry

    async def ask_and_count(self, request):
        answer = await ask(self, request)
        answered[request.message_method.name] += 1
        return answer
    client.request_with_retry = ask_and_count


def describe(own):
    """Sends this side's description to the other."""
    print(json.dumps(own), flush=True)


async def described():
    """Waits for the other side's description."""
    loop = asyncio.get_running_loop()
    return json.loads(await loop.run_in_executor(None, sys.stdin.readline))


async def talk(arguments, send, receive):
    """Sends messages and waits for each to come back, or sends back what comes, until the end."""
    async def hear():
        try:
            return await asyncio.wait_for(receive(), PATIENCE * arguments.speed)
        except asyncio.TimeoutError:
            sys.exit(f"nothing comes for {PATIENCE} s")

    if not arguments.offers:
        message = b""
        while message != END:
            message = await hear()
            await send(message)
        await asyncio.sleep(arguments.speed)
        return
    count, end, message = 0, time.monotonic() + arguments.seconds, b""
    while message != END:
        over = time.monotonic() >= end
        message = END if over else count.to_bytes(8, "big") + os.urandom(count % 1000)
        await send(message)
        if await hear() != message:
            sys.exit(f"message {count} came back as another")
        count += 1
        await asyncio.sleep(0.01 * arguments.speed)
    told = f"{answered['REFRESH']} refreshes, {answered['CHANNEL_BIND']} channels"
    print(f"{count} messages came back, {told}", flush=True)


def run(main):
    """Runs a side: a coroutine of its arguments."""
    arguments = Arguments()
    count_requests(aioice.turn.TurnClientMixin)
    hasten(arguments.speed)
    asyncio.get_event_loop().run_until_complete(main(arguments))
