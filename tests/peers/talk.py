# SPDX-License-Identifier: Apache-2.0
"""Peers of WebRTC, one of them aiortc or pion, that talk over data channels, and a tap that keeps their SCTP packets."""

import asyncio
import collections
import itertools
import json
import os
import random
import time
from dataclasses import dataclass

import aioice.ice
from aiortc import RTCConfiguration, RTCPeerConnection, RTCSessionDescription
from aiortc import rtcsctptransport as sctp
from aiortc.utils import uint32_gt, uint32_gte

HERE = os.path.dirname(os.path.abspath(__file__))
# What a peer sets for each channel. The ordered ones carry texts, the others bytes.
CHANNELS = {
    "ordered": {},
    "unordered": {"ordered": False},
    "once": {"maxRetransmits": 0},
    "brief": {"ordered": False, "maxPacketLifeTime": 500},
}
RELIABLE, PARTIAL = ["ordered", "unordered"], ["once", "brief"]

# aiortc 1.4 begins no message after one that it delivered, unless its TSN is the next; what came then waits for a further packet.
pop_message = sctp.InboundStream.pop_messages
sctp.InboundStream.pop_messages = lambda self: iter(lambda: next(pop_message(self), None), None)
# aiortc's own, also where the package is in its place (layer.py).
parse_packet = sctp.parse_packet
aioice.ice.get_host_addresses = lambda use_ipv4, use_ipv6: ["127.0.0.1"]


def plain(value):
    return tuple(map(plain, value)) if isinstance(value, (list, tuple)) else value


def fields(chunk):
    """The fields of a chunk of aiortc; those that begin with _ aren't on the wire."""
    return {"type": chunk.type} | {name: plain(it) for name, it in vars(chunk).items() if name[0] != "_"}


def message(label, size, draw):
    if not CHANNELS[label].get("ordered", True):
        return draw.randbytes(size)
    # (characters of one to four bytes)
    text = "".join(draw.choices("aé☃😀", k=size)).encode()[:size].decode(errors="ignore")
    return text + "." * (size - len(text.encode()))


@dataclass
class Packet:
    time: float
    sender: int  # 0: the one that offers
    data: bytes
    read: tuple  # ports, tag and chunks, as aiortc reads them
    written: tuple | None  # the same, as aiortc wrote it


@dataclass
class Talk:
    packets: list
    sent: list  # by peer and channel: the messages
    got: list
    pion: int | None = None  # the place of pion, if it is a peer


class Tap:
    """Keeps the packets of a peer of aiortc or pion, which offers (0) or answers (1). Where it is lossy, of seven packets with DATA of a
    channel, or with none, it loses the third, and doubles the sixth. What happens is an event, for those that wait."""

    def __init__(self, own):
        self.own, self.packets, self.written = own, [], None
        self.is_placed = self.is_lossy = self.is_aborted = False
        self.counts, self.last, self.acknowledged = collections.Counter(), {}, {}
        self.event = asyncio.Event()

    def look(self, *_):
        self.event.set()

    async def until(self, holds):
        while not holds():
            self.event.clear()
            await self.event.wait()

    async def lose(self, is_lossy):
        self.is_lossy = is_lossy

    def is_settled(self):
        """Whether each end acknowledged all of the other, be it in a SACK that is lost: aiortc may send none after it."""
        return all(it in self.acknowledged and uint32_gte(self.acknowledged[it], last) for it, last in self.last.items())

    def place(self, transport):
        if self.is_placed:
            return
        self.is_placed = True
        handle, write, send = transport._handle_data, transport._send_chunk, transport.transport._send_data

        async def handle_data(data):
            for _ in range(self.take(data, 1 - self.own)):
                await handle(data)

        async def send_chunk(chunk):
            self.written = fields(chunk)
            await write(chunk)

        async def send_data(data):
            for _ in range(self.take(data, self.own)):
                await send(data)

        transport._handle_data, transport._send_chunk, transport.transport._send_data = handle_data, send_chunk, send_data

    def take(self, data, sender):
        """Keeps a packet of aiortc, and says how often it goes on."""
        *header, chunks = parse_packet(data)
        copies = 1
        # (aiortc sends neither of these a second time)
        if self.is_lossy and not any(isinstance(it, (sctp.ForwardTsnChunk, sctp.ReconfigChunk)) for it in chunks):
            kind = sender, next((it.stream_id for it in chunks if isinstance(it, sctp.DataChunk)), None)
            self.counts[kind] += 1
            copies = {3: 0, 6: 2}.get(self.counts[kind] % 7, 1)
        self.keep(data, sender, copies, (*header, [self.written]) if sender == self.own else None)
        return copies

    def keep(self, data, sender, copies, written=None):
        """Keeps a packet that goes on so often."""
        *header, chunks = parse_packet(data)
        packet = Packet(time.time(), sender, data, (*header, [fields(it) for it in chunks]), written)
        self.packets += [packet] * max(copies, 1)
        for it in chunks:
            if isinstance(it, sctp.DataChunk) and (sender not in self.last or uint32_gt(it.tsn, self.last[sender])):
                self.last[sender] = it.tsn
            elif isinstance(it, sctp.SackChunk):
                self.acknowledged[1 - sender] = it.cumulative_tsn
            elif isinstance(it, sctp.AbortChunk):
                self.is_aborted = True
        self.look()


class Aiortc:
    def __init__(self, tap):
        self.tap, self.channels, self.got = tap, {}, {}
        self.connection = RTCPeerConnection(RTCConfiguration(iceServers=[]))
        self.connection.on("datachannel", self.watch)
        self.states = {
            "open": lambda labels: all(it in self.channels and self.channels[it].readyState == "open" for it in labels),
            "received": lambda counts: all(len(self.got[label]) >= count for label, count in counts.items()),
            "drained": lambda labels: not any(self.channels[it].bufferedAmount for it in labels),
            "closed": lambda labels: all(self.channels[it].readyState == "closed" for it in labels),
        }

    def watch(self, channel):
        self.channels[channel.label], self.got[channel.label] = channel, []
        channel.on("message", self.got[channel.label].append)
        for event in ("open", "message", "bufferedamountlow", "close"):
            channel.on(event, self.tap.look)
        self.tap.look()

    async def until(self, state, given):
        await self.tap.until(lambda: self.states[state](given))

    async def describe(self, description):
        self.tap.place(self.connection.sctp)
        await self.connection.setLocalDescription(description)
        return self.connection.localDescription.sdp

    async def offer(self, channels):
        for label, settings in channels.items():
            self.watch(self.connection.createDataChannel(label, **settings))
        return await self.describe(await self.connection.createOffer())

    async def answer(self, sdp):
        await self.connection.setRemoteDescription(RTCSessionDescription(sdp, "offer"))
        return await self.describe(await self.connection.createAnswer())

    async def accept(self, sdp):
        await self.connection.setRemoteDescription(RTCSessionDescription(sdp, "answer"))

    async def send(self, label, messages):
        for it in messages:
            self.channels[label].send(it)

    async def received(self):
        return self.got

    async def close(self, label):
        self.channels[label].close()

    async def end(self):
        await self.connection.close()


class Program:
    """A program that is asked by lines of JSON, [number, words..], and answers each by one: [number, value, error]."""

    def __init__(self, *command):
        self.command = command

    async def __aenter__(self):
        pipe = asyncio.subprocess.PIPE
        self.process = await asyncio.create_subprocess_exec(*self.command, stdin=pipe, stdout=pipe, limit=1 << 26)
        self.numbers, self.answers, self.reader = itertools.count(), {}, asyncio.create_task(self.read())
        return self

    async def __aexit__(self, *_):
        self.process.stdin.close()
        await self.reader
        await self.process.wait()

    async def read(self):
        while line := await self.process.stdout.readline():
            said = json.loads(line)
            if isinstance(said, dict):
                self.note(**said)
            else:
                number, *answer = said
                self.answers.pop(number).set_result(answer)

    async def ask(self, *words):
        number, answer = next(self.numbers), asyncio.get_running_loop().create_future()
        self.answers[number] = answer
        self.process.stdin.write(json.dumps([number, *words]).encode() + b"\n")
        await asyncio.wait([answer, self.reader], return_when=asyncio.FIRST_COMPLETED)
        value, *error = answer.result() if answer.done() else [None, f"{self.command[0]} ended"]
        if error:
            raise RuntimeError(*error)
        return value


class Browser(Program):
    """Chromium with the page peer.html."""

    def __init__(self):
        super().__init__("node", os.path.join(HERE, "chromium.mjs"))


class Asked:
    """A peer that is asked by lines, in a text and bytes in hexadecimal."""

    async def answer(self, sdp):
        return await self.call("answer", sdp)

    async def offer(self, channels):
        return await self.call("offer", channels)

    async def accept(self, sdp):
        await self.call("accept", sdp)

    async def until(self, state, given):
        await self.call("until", state, given)

    async def send(self, label, messages):
        await self.call("send", label, [it if isinstance(it, str) else [it.hex()] for it in messages])

    async def received(self):
        got = await self.call("received")
        return {label: [it if isinstance(it, str) else bytes.fromhex(*it) for it in all] for label, all in got.items()}

    async def close(self, label):
        await self.call("close", label)

    async def end(self):
        await self.call("end")


class Pion(Asked, Program):
    """pion over the Go package (pion/), whose packets are taken there."""

    def __init__(self, command, tap):
        super().__init__(command)
        self.tap, self.call = tap, self.ask
        tap.lose = lambda is_lossy: self.call("lossy", is_lossy)

    def note(self, packet, is_sent, copies):
        self.tap.keep(bytes.fromhex(packet), self.tap.own if is_sent else 1 - self.tap.own, copies)


class Chromium(Asked):
    """A peer in the page, which does the same."""

    def __init__(self, browser):
        self.browser, self.name = browser, f"peer{next(browser.numbers)}"
        self.is_made = False

    async def call(self, method, *given):
        if not self.is_made:
            self.is_made = True
            await self.browser.ask(f"void ({self.name} = new Peer())")
        return await self.browser.ask(f"{self.name}.{method}({', '.join(map(json.dumps, given))})")


async def talk(tap, one, other):
    """Has the first offer channels to the other, and end it with an ABORT."""
    draw, ends = random.Random(1), (one, other)
    sent = [{label: [] for label in CHANNELS} for _ in ends]

    async def all_reach(state, labels):
        await asyncio.gather(*(it.until(state, labels) for it in ends))

    async def exchange(labels, *sizes):
        for end, mine in zip(ends, sent):
            for label in labels:
                some = [message(label, size, draw) for size in sizes]
                mine[label] += some
                await end.send(label, some)
        for end, theirs in zip(ends, reversed(sent)):
            await end.until("received", {label: len(theirs[label]) for label in RELIABLE})
        # (what becomes of a message that is late isn't known)
        await all_reach("drained", [label for label in labels if "maxPacketLifeTime" not in CHANNELS[label]])
        await tap.until(tap.is_settled)

    await one.accept(await other.answer(await one.offer(CHANNELS)))
    await all_reach("open", list(CHANNELS))
    # (at FORWARD-TSN aiortc 1.4 loses what it has of messages in several chunks, reliable ones too)
    await exchange(RELIABLE, 0, 1, 1200, 60000)
    await exchange(PARTIAL, 0, 1, 1200)
    await tap.lose(True)
    await exchange(list(CHANNELS), *[1000] * 14)
    await tap.lose(False)
    await asyncio.gather(one.close(RELIABLE[0]), other.close(RELIABLE[1]))
    await all_reach("closed", RELIABLE)
    got = [await it.received() for it in ends]
    await one.end()
    await tap.until(lambda: tap.is_aborted)
    await all_reach("closed", list(CHANNELS))
    await other.end()
    return Talk(tap.packets, sent, got)
