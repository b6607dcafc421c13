"""Flows that the program must not take, and rates: by frames."""
import os
import struct
import time

import programs
import rows
from steps import check

CLIENT, PEER = (bytes([192, 0, 2, 1]), 5001), (bytes([198, 51, 100, 7]), 4000)
SERVER, RELAYED = (bytes([203, 0, 113, 1]), 3478), (bytes([203, 0, 113, 1]), 50002)
NUMBER, FAR_AWAY = 0x4001, 2**63
OTHER = bytes([203, 0, 113, 9])


def to_peer(bench, **how):
    """A flow from the client to the peer, with what is otherwise."""
    its = {"theirs": CLIENT, "ours": SERVER, "number": NUMBER, "own": RELAYED, "far": PEER, "given": 0,
           "until": FAR_AWAY, "interfaces": (bench.interface, bench.interface)} | how
    return bench.program.begin(**its)


def to_client(bench, **how):
    its = {"theirs": PEER, "ours": RELAYED, "number": 0, "own": SERVER, "far": CLIENT, "given": NUMBER,
           "until": FAR_AWAY, "interfaces": (bench.interface, bench.interface)} | how
    return bench.program.begin(**its)


def data_frame(bench, **how):
    octets = NUMBER.to_bytes(2) + b"\0\5hello"
    return bench.frame(*CLIENT, *SERVER, octets, **how)


def peers_frame(bench, data=b"hello", **how):
    return bench.frame(*PEER, *RELAYED, data, **how)


def expect(bench, frame, reason, **how):
    verdict, after, got = bench.program.run(frame, how.pop("interface", bench.interface), **how)
    check(got == reason, f"{got} instead of {reason}")
    check((verdict == programs.UP) == (reason not in ("relayed", "over")) and (verdict != programs.UP or after == frame),
          f"{verdict} for {reason}")


def own(bench):
    """A worker that is taken over writes flows from and to places that aren't the server's."""
    expect(bench, data_frame(bench), "unknown")
    to_peer(bench)
    to_client(bench)
    expect(bench, data_frame(bench), "relayed")
    expect(bench, peers_frame(bench), "relayed")
    for place in ((OTHER, 50002), (RELAYED[0], 49151), (RELAYED[0], 53), SERVER):
        to_peer(bench, own=place)
        expect(bench, data_frame(bench), "not-own")
    for place in ((OTHER, 3478), (SERVER[0], 53), RELAYED):
        to_client(bench, own=place)
        expect(bench, peers_frame(bench), "not-own")
    for number in (0, 0x3FFF, 0x5000):
        to_client(bench, given=number)
        expect(bench, peers_frame(bench), "not-own")
    to_peer(bench, given=NUMBER)
    expect(bench, data_frame(bench), "not-own")
    to_peer(bench, interfaces=(bench.interface, bench.interface + 1))
    expect(bench, data_frame(bench), "not-own")
    # (what comes to other places isn't even looked up)
    for place in ((OTHER, 3478), (SERVER[0], 53), (RELAYED[0], 49151)):
        to_client(bench, theirs=PEER, ours=place)
        expect(bench, bench.frame(*PEER, *place, b"hello"), "unknown")
        to_peer(bench, ours=place)
        expect(bench, bench.frame(*CLIENT, *place, NUMBER.to_bytes(2) + b"\0\5hello"), "unknown")


def strangers(bench):
    to_peer(bench)
    to_client(bench)
    for theirs in ((CLIENT[0], 5002), (PEER[0], 5001)):
        expect(bench, bench.frame(*theirs, *SERVER, NUMBER.to_bytes(2) + b"\0\5hello"), "unknown")
    for theirs in ((PEER[0], 4001), (CLIENT[0], 4000)):
        expect(bench, bench.frame(*theirs, *RELAYED, b"hello"), "unknown")
    expect(bench, bench.frame(*CLIENT, *SERVER, b"\x40\x02\0\5hello"), "unknown")
    expect(bench, bench.frame(*PEER, RELAYED[0], 50003, b"hello"), "unknown")


def vouched(bench):
    """A flow needs a process that lives, in the life in which it began the flow, and time that is left."""
    program = bench.program
    key = to_peer(bench, worker=3, life=7)
    expect(bench, data_frame(bench), "unvouched")
    program.vouch(3, 7, 3600)
    expect(bench, data_frame(bench), "relayed")
    program.vouch(3, 8, 3600)
    expect(bench, data_frame(bench), "unvouched")
    program.vouch(3, 7, -0.001)
    expect(bench, data_frame(bench), "unvouched")
    program.vouch(3, 7, 3600)
    program.until(key, time.monotonic_ns())
    expect(bench, data_frame(bench), "expired")
    program.until(key, time.monotonic_ns() + 10**9)
    expect(bench, data_frame(bench), "relayed")
    to_peer(bench, worker=64)
    expect(bench, data_frame(bench), "unvouched")
    # (a slot that has another flow's key)
    key = to_peer(bench)
    program.flows[program.keys[key] * programs.FLOW] ^= 1
    expect(bench, data_frame(bench), "unknown")


def packets(bench):
    """Interfaces, lengths, hops, several datagrams in one, checksums that aren't written yet, both families."""
    to_peer(bench, mtu=100)
    to_client(bench, mtu=100)
    expect(bench, bench.others_address + data_frame(bench)[6:], "interface", interface=bench.other)
    for more, reason in ((0, "relayed"), (1, "too-long")):
        octets = NUMBER.to_bytes(2) + (72 + more).to_bytes(2) + bytes(72 + more)
        expect(bench, bench.frame(*CLIENT, *SERVER, octets), reason)
        expect(bench, peers_frame(bench, bytes(68 + more)), reason)
    to_client(bench, mtu=65535)
    for length, reason in ((1468, "relayed"), (1469, "too-long")):
        expect(bench, peers_frame(bench, bytes(length)), reason)
    for hops, reason in ((0, "ttl"), (1, "ttl"), (2, "relayed")):
        expect(bench, data_frame(bench, ttl=hops), reason)
    expect(bench, peers_frame(bench, bytes(100)), "segments", segment=50)
    frame = bytearray(data_frame(bench))
    frame[40:42] = rows.summed(rows.frames.pseudo(CLIENT[0], SERVER[0], 17)).to_bytes(2)
    expect(bench, bytes(frame), "segments")
    six = bytes.fromhex("20010db8000000000000000000000001")
    to_peer(bench, own=(six, 50002))
    expect(bench, data_frame(bench), "family")
    to_peer(bench, far=(six, 4000))
    expect(bench, data_frame(bench), "family")
    expect(bench, peers_frame(bench, b"abc"), "not-plain")  # (less than the four octets that it reads)


def counted(bench):
    """A flow counts its datagrams, and the octets of their data."""
    out, back = to_peer(bench), to_client(bench)
    for _ in range(3):
        expect(bench, data_frame(bench), "relayed")
    expect(bench, peers_frame(bench, b"to the client"), "relayed")
    check(bench.program.counts(out) == (3, 15, 0), bench.program.counts(out))
    check(bench.program.counts(back) == (1, 13, 0), bench.program.counts(back))


def rates(bench):
    """Rates of datagrams and of octets, in one bucket with the server's process."""
    program, passed = bench.program, 0
    for number, rate, least in ((5, {"packet_rate": 10}, 10), (6, {"bandwidth": 280}, 10)):
        program.bucket(number, **rate)
        key, began = to_peer(bench, bucket=number), time.monotonic()
        for _ in range(100):
            verdict, _, reason = program.run(data_frame(bench), bench.interface)
            check((verdict, reason) in ((programs.REDIRECT, "relayed"), (programs.SHOT, "over")), f"{verdict} {reason}")
        passed, _, over = program.counts(key)
        most = least + 2 + int((time.monotonic() - began) * 10)
        check(least <= passed <= most and passed + over == 100, f"{rate}: {passed} passed, {over} didn't")
    program.bucket(7, bandwidth=10**6)
    key = to_peer(bench, bucket=7)
    expect(bench, data_frame(bench), "relayed")
    paid, = struct.unpack_from("<Q", program.buckets, 7 * programs.BUCKET)
    check(abs(paid - time.monotonic_ns() - 28_000) < 10**9, "28 octets of a million take 28 us")
    struct.pack_into("<Q", program.buckets, 7 * programs.BUCKET, time.monotonic_ns() + 11 * 10**8)
    expect(bench, data_frame(bench), "over")  # (the process has paid for all of the second)
    to_peer(bench, bucket=0xFFFFFFFF)
    expect(bench, data_frame(bench), "relayed")


def constants(bench):
    """Nobody changes the constants."""
    number = bench.program.open("own")
    rooms = [programs.ctypes.create_string_buffer(it) for it in (4, 256)]
    try:
        programs.system(programs.UPDATE, struct.pack("<I4xQQQ", number, *map(programs.at, rooms), 0))
    except PermissionError:
        return
    finally:
        os.close(number)
    check(False, "the constants were changed")
