# SPDX-License-Identifier: Apache-2.0
"""Has peers talk, and compares what each reader says of their packets.

usage: run.py PROGRAM FOLDER [PION]

PROGRAM is sctp_dump; FOLDER gets a capture of each talk; PION is the program of pion/. Used where they are there: chromium, or what
CHROMIUM names, with node; tshark. Prints what differs, and a last line that counts. Status 0 if nothing does."""

import asyncio
import contextlib
import logging
import os
import random
import shutil
import sys
from dataclasses import replace

import davgyuti
from compare import READERS, write
from layer import counts, over_the_package
from talk import Aiortc, Browser, Chromium, Pion, Tap, talk

# Seconds for a talk.
LIMIT = 600
# Who offers, and who answers; the first ends it. Then whether aiortc reads and writes its packets by the package; pion does.
TALKS = [
    ("pion", "Chromium", True),
    ("Chromium", "pion", True),
    ("aiortc", "aiortc", False),
    ("Chromium", "aiortc", False),
    ("aiortc", "Chromium", False),
    ("aiortc", "aiortc", True),
    ("Chromium", "aiortc", True),
    ("aiortc", "Chromium", True),
]
# What has to be found where bytes were changed: without a new checksum, and with one.
CHANGED = {False: ["sctp_dump", "the package", "tshark", "the association"], True: ["sctp_dump", "the package", "the messages"]}

passed = failed = 0


def judge(name, problems):
    """Counts a comparison, by what it found."""
    global passed, failed
    passed, failed = passed + (not problems), failed + bool(problems)
    if problems:
        print(f"peers: {name}: {len(problems)} differ")
    for number, text in problems[:5]:
        print(f"    {f'packet {number}: ' if number else ''}{text[:1000]}")


def differences(look, *given):
    try:
        return list(look(*given))
    except (LookupError, TypeError, ValueError) as error:
        return [(None, f"what is read isn't of its form: {error!r}")]


def lacks():
    """What is left out, by the tool that isn't there."""
    for name, *tools in ("Chromium", "node", os.environ.get("CHROMIUM", "chromium")), ("tshark", "tshark"):
        for tool in tools:
            if not shutil.which(tool):
                print(f"peers: {name}: left out, since there is no {tool}")
                yield name
                break


def change(packets, is_sealed):
    """Changes a byte in each of 40 packets that the peer of aiortc sent, and says which."""
    draw, changed = random.Random(1), list(packets)
    numbers = draw.sample([number for number, it in enumerate(packets, 1) if it.written], 40)
    for number in numbers:
        data = bytearray(packets[number - 1].data)
        data[draw.choice([*range(8), *range(12, len(data))])] ^= draw.randrange(1, 256)
        changed[number - 1] = replace(packets[number - 1], data=davgyuti.seal(data) if is_sealed else bytes(data))
    return changed, set(numbers)


async def called(ends):
    """How many packets aiortc or pion read and wrote by the package."""
    for it in ends:
        if isinstance(it, Pion):
            return await it.call("counts")
    return [counts["read"], counts["written"]]


async def main(program, folder, pion=None):
    left_out, said = set(lacks()), None
    if not pion:
        print("peers: pion: left out, since there is no pion/webrtc, or no go")
        left_out.add("pion")
    readers = {name: it for name, it in READERS.items() if name not in left_out}
    async with Browser() if "Chromium" not in left_out else contextlib.nullcontext() as browser:
        for *names, is_over in TALKS:
            if left_out & set(names):
                continue
            name = " to ".join(names) + (", over the package" if is_over else "")
            path = os.path.join(folder, "-".join(names) + ("-package" if is_over else "") + ".pcap")
            tap = Tap(next(at for at, it in enumerate(names) if it != "Chromium"))
            made = {"aiortc": lambda: Aiortc(tap), "Chromium": lambda: Chromium(browser), "pion": lambda: Pion(pion, tap)}
            ends = [made[it]() for it in names]
            async with contextlib.AsyncExitStack() as programs:
                for it in ends:
                    if isinstance(it, Pion):
                        await programs.enter_async_context(it)
                try:
                    with over_the_package() if is_over else contextlib.nullcontext():
                        said = await asyncio.wait_for(talk(tap, *ends), LIMIT)
                    said.pion = names.index("pion") if "pion" in names else None
                except (asyncio.TimeoutError, RuntimeError) as error:
                    judge(name, [(None, f"the talk doesn't end: {error!r}")])
                    continue
                if is_over:
                    judge(f"{name}: calls", [] if all(await called(ends)) else [(None, "the package isn't called")])
            write(said.packets, path)
            for reader, look in readers.items():
                judge(f"{name}: {reader}", differences(look, said, program, path))
            print(f"peers: {name}: {len(said.packets)} packets were compared")
    for is_sealed, names in CHANGED.items() if said else ():
        packets, numbers = change(said.packets, is_sealed)
        path = os.path.join(folder, "changed.pcap")
        write(packets, path)
        for reader in readers.keys() & names:
            found = {number for number, _ in differences(readers[reader], replace(said, packets=packets), program, path)}
            missed = [(it, "the changed byte isn't found, or found elsewhere") for it in found ^ numbers]
            name = f"changed bytes, {'with' if is_sealed else 'without'} a new checksum: {reader}"
            judge(name, [] if found == {None} else missed)
    print(f"peers: {passed} passed, {failed} failed")
    return failed


if __name__ == "__main__":
    # (aioice 0.8 logs an error where an answer comes late)
    logging.disable()
    sys.exit(asyncio.run(main(*sys.argv[1:])) > 0)
