#!/usr/bin/env python3
# SPDX-License-Identifier: Apache-2.0
"""Checks each SCTP packet of aiortc, before aiortc reads it and after aiortc wrote it.

Two peers in this process send messages to and fro over a data channel on 127.0.0.1, and also bytes that are no packet. It ends
by itself, within seconds, with a line of counts; the status is 0 if all messages came back. Needed is aiortc; 1.4 was tried.
"""

import asyncio
import collections
import sys

import aioice.ice
import davgyuti
from aiortc import RTCConfiguration, RTCPeerConnection, rtcsctptransport

MESSAGES = [f"message {it}" if it % 2 else bytes(it * 100) for it in range(1, 41)]
counts: collections.Counter[str] = collections.Counter()


def look(way: str, data: bytes) -> None:
    """Counts the packet and its chunks; prints and raises the first fault of one that is none."""
    try:
        packet = davgyuti.Packet(data)
    except davgyuti.Fault as fault:
        counts[f"refused as {way}"] += 1
        print(f"{way}: {fault}, of {len(data)}")
        raise
    counts[f"packets {way}"] += 1
    counts.update(f"{davgyuti.chunk_name(it.type)} {way}" for it in packet.raw_chunks())


def guard() -> None:
    """Puts the package before the function by which aiortc reads packets, and after the one that writes them."""
    parse, serialize = rtcsctptransport.parse_packet, rtcsctptransport.serialize_packet

    def checked_parse(data):
        look("received", data)  # (a Fault is a ValueError, for which aiortc drops the packet)
        return parse(data)

    def checked_serialize(*arguments):
        data = serialize(*arguments)
        look("sent", data)
        return data

    rtcsctptransport.parse_packet, rtcsctptransport.serialize_packet = checked_parse, checked_serialize


def hostile() -> bytes:
    """A SACK that lacks the gap ack block that it announces, at which aiortc's own reader raises struct.error."""
    builder = davgyuti.PacketBuilder(5000, 5000, 1)
    builder.chunk(davgyuti.ChunkType.SACK, 0, bytes(8) + b"\0\1\0\0")
    return builder.seal()


async def talk() -> bool:
    # (no server is asked for an address)
    one, two = (RTCPeerConnection(RTCConfiguration(iceServers=[])) for _ in range(2))
    channel = one.createDataChannel("echo")
    is_open, returned = asyncio.Event(), asyncio.Queue()
    channel.on("open", is_open.set)
    channel.on("message", returned.put_nowait)
    two.on("datachannel", lambda other: other.on("message", other.send))
    await one.setLocalDescription(await one.createOffer())
    await two.setRemoteDescription(one.localDescription)
    await two.setLocalDescription(await two.createAnswer())
    await one.setRemoteDescription(two.localDescription)
    await is_open.wait()
    for message in MESSAGES[:-1]:
        channel.send(message)
    await one.sctp.transport._send_data(hostile())
    channel.send(MESSAGES[-1])
    found = [await returned.get() for _ in MESSAGES]
    channel.close()
    await one.close()
    await two.close()
    return found == MESSAGES


if __name__ == "__main__":
    aioice.ice.get_host_addresses = lambda use_ipv4, use_ipv6: ["127.0.0.1"]
    guard()
    came_back = asyncio.run(asyncio.wait_for(talk(), 300))
    print(", ".join(f"{name} {count}" for name, count in sorted(counts.items())))
    sys.exit(not came_back)
