# SPDX-License-Identifier: Apache-2.0
"""The limits of a packet that is written, and what is refused: nothing is changed then."""

import inspect
import typing
import unittest
from collections.abc import Callable
from dataclasses import MISSING, fields, replace
from typing import Any

import davgyuti
from davgyuti import PacketBuilder, Result, _kinds
from support import of_hex
from test_vectors import HINTS, RAW

SHORT = {"stream", "ssn", "outbound_streams", "inbound_streams", "new_streams", "type", "code"}


class Number(int):
    pass


class Limits(unittest.TestCase):
    def test_grows(self) -> None:
        builder = PacketBuilder(1, 2, 3)
        payload = bytes(range(256)) * 40
        for tsn in range(6):
            builder.data(payload, tsn=tsn, stream=0, ssn=tsn, ppid=51)
        self.assertEqual(len(builder), 12 + 6 * (16 + 10240))
        packet = davgyuti.Packet(builder.seal())
        self.assertEqual([it.tsn for it in packet if isinstance(it, davgyuti.Data) and it.payload == payload], [*range(6)])

    def test_largest(self) -> None:
        builder = PacketBuilder(1, 2, 3)
        builder.cookie_echo(bytes(65516))
        self.assertEqual(len(builder), davgyuti.MAX_PACKET_SIZE)
        data = builder.seal()
        self.assertEqual(len(data), 65532)
        self.assertEqual(davgyuti.Packet(data).chunks(), (davgyuti.CookieEcho(bytes(65516)),))
        with self.assertRaises(davgyuti.NoRoom):
            builder.cookie_ack()
        self.assertEqual(builder.seal(), data)
        with self.assertRaises(davgyuti.NoRoom):
            PacketBuilder(1, 2, 3).cookie_echo(bytes(65517))
        with self.assertRaises(davgyuti.BadValue):
            PacketBuilder(1, 2, 3).cookie_echo(bytes(65532))

    def test_limit(self) -> None:
        builder = PacketBuilder(1, 2, 3, limit=28)
        self.assertEqual(builder.limit, 28)
        builder.shutdown(7)
        builder.shutdown(8)
        before = bytes(builder)
        with self.assertRaises(davgyuti.NoRoom) as caught:
            builder.shutdown(9)
        self.assertEqual(caught.exception.code, Result.NO_ROOM)
        self.assertEqual(str(caught.exception), "no room: 8 bytes more, after 28 of at most 28")
        self.assertEqual((bytes(builder), len(builder)), (before, 28))
        self.assertEqual(PacketBuilder(1, 2, 3, limit=10**9).limit, 65532)
        for limit in (-1, 0, 11):
            with self.assertRaises(davgyuti.NoRoom):
                PacketBuilder(1, 2, 3, limit=limit)
        self.assertEqual(bytes(PacketBuilder(1, 2, 3, limit=12)), of_hex("0001 0002 00000003 00000000"))

    def test_seal_goes_on(self) -> None:
        builder = PacketBuilder(5000, 5000, 0x4D2DF52D)
        builder.cookie_ack()
        data = builder.seal()
        self.assertEqual(data, of_hex("1388 1388 4d2df52d 67db78b5  0b 00 0004"))
        self.assertEqual(bytes(builder)[8:12], bytes(4))
        builder.shutdown_ack()
        self.assertEqual(davgyuti.Packet(builder.seal()).chunks(), (davgyuti.CookieAck(), davgyuti.ShutdownAck()))
        self.assertEqual(data[8:12], of_hex("67db78b5"))


class Lists(unittest.TestCase):
    def builder(self) -> PacketBuilder:
        builder = PacketBuilder(1, 2, 3, limit=64)
        builder.cookie_ack()
        return builder

    def test_taken_back(self) -> None:
        builder = self.builder()
        before = bytes(builder)
        with self.assertRaises(davgyuti.NoRoom), builder.error() as error:
            error.cause(davgyuti.NoUserData(7)).cause(davgyuti.ProtocolViolation(bytes(100)))
        self.assertEqual(bytes(builder), before)
        with self.assertRaises(KeyError), builder.re_config() as chunk:
            chunk.parameter(davgyuti.SsnTsnReset(1))
            raise KeyError
        self.assertEqual(bytes(builder), before)

    def test_not_taken_back_with_others(self) -> None:
        builder = self.builder()
        with self.assertRaises(davgyuti.BadPlace) as caught, builder.error() as error:
            error.cause(davgyuti.NoUserData(7))
            builder.shutdown(9)
            raise KeyError
        self.assertIsInstance(caught.exception.__cause__, KeyError)
        self.assertEqual(bytes(builder)[16:], of_hex("09 00 000c  0009 0008 00000007  07 00 0008 00000009"))
        with self.assertRaises(KeyboardInterrupt), builder.error():
            builder.cookie_ack()
            raise KeyboardInterrupt

    def test_writer_of_a_chunk_that_is_no_more(self) -> None:
        builder = self.builder()
        with self.assertRaises(KeyError), builder.error() as error:
            raise KeyError
        self.assertRaises(davgyuti.BadPlace, error.cause, davgyuti.NoUserData(1))
        self.assertEqual(len(builder), 16)
        # (where that chunk was, there are others: the library alone would take their lists for its own)
        builder.abort("why")
        with self.assertRaises(davgyuti.BadPlace) as caught:
            error.cause(davgyuti.NoUserData(1))
        self.assertEqual(str(caught.exception), "the chunk isn't the packet's last one any more")
        self.assertEqual(bytes(builder)[16:], of_hex("06 00 000b  000c 0007 77687900"))

    def test_after_a_value_with_padding(self) -> None:
        builder = self.builder()
        before = bytes(builder)
        with self.assertRaises(KeyError), builder.chunk(200, 1, b"abc"):
            raise KeyError
        self.assertEqual(bytes(builder), before)
        builder.chunk(200, 1, b"abc").parameter(davgyuti.ForwardTsnSupported())
        self.assertEqual(bytes(builder)[16:], of_hex("c8 01 000c  616263 00  c000 0004"))

    def test_too_long(self) -> None:
        builder = PacketBuilder(1, 2, 3)
        error = builder.error()
        for size, kind in ((65528, davgyuti.NoRoom), (65529, davgyuti.BadValue)):
            self.assertRaises(kind, error.cause, davgyuti.ProtocolViolation(bytes(size - 1)))
            self.assertEqual(bytes(builder)[12:], of_hex("09 00 0004"))

    def test_writers_within_one_another(self) -> None:
        builder = self.builder()
        with self.assertRaises(davgyuti.BadPlace), builder.re_config() as outer:
            inner = builder.re_config()
            with self.assertRaises(KeyError), inner:
                raise KeyError
            self.assertEqual(len(builder), 20)
            builder.heartbeat(b"12345678")
            raise KeyError
        before = bytes(builder)
        for writer in (outer, inner):
            with self.assertRaises(davgyuti.BadPlace):
                writer.parameter(davgyuti.SsnTsnReset(7))
        self.assertEqual(bytes(builder), before)

    def test_one_that_raises_leaves_the_last_chunk(self) -> None:
        builder = self.builder()
        error = builder.error()
        with self.assertRaises(davgyuti.NoRoom):
            builder.add(davgyuti.OperationError((davgyuti.ProtocolViolation(bytes(100)),)))
        with self.assertRaises(davgyuti.NoRoom):
            builder.cookie_echo(bytes(100))
        with self.assertRaises(ValueError):
            builder.add(davgyuti.Heartbeat((davgyuti.HeartbeatInfo(b""), davgyuti.RawParameter(65536))))
        error.cause(davgyuti.NoUserData(7))
        self.assertEqual(bytes(builder)[16:], of_hex("09 00 000c  0009 0008 00000007"))


class Refused(unittest.TestCase):
    def refused(
        self, error: type[Exception], write: Callable[[Any], object], text: str = "", builder: PacketBuilder | None = None
    ) -> None:
        if builder is None:
            builder = PacketBuilder(1, 2, 3)
            builder.cookie_ack()
        before = bytes(builder)
        with self.assertRaises(error) as caught:
            write(builder)
        self.assertIn(text, str(caught.exception))
        self.assertEqual(bytes(builder), before)

    def test_numbers(self) -> None:
        """Each field of each kind, beside its least and its largest number; the error names it."""
        values: dict[Any, Any] = {int: 1, bytes: b"a", davgyuti.ReConfigResult: davgyuti.ReConfigResult(0)}
        for kind in (*HINTS, *RAW.values()):
            hints = typing.get_type_hints(kind)
            part = kind(**{it.name: values.get(hints[it.name], ()) for it in fields(kind) if it.default is MISSING})
            for name in [it.name for it in fields(kind) if hints[it.name] is int and it.name != "reserved"]:
                most = 2 ** (8 if kind is davgyuti.RawChunk else 16 if name in SHORT else 32) - 1
                for number in (0, most, True, Number(most)):
                    bytes(replace(part, **{name: number}))
                for number in (-1, most + 1, 2**64):
                    with self.assertRaisesRegex(ValueError, f"^{name} has to be 0 to {most}, and is {number}$"):
                        bytes(replace(part, **{name: number}))
                for wrong in (1.0, None, "1"):
                    self.assertRaises(TypeError, bytes, replace(part, **{name: wrong}))
        for ports in ((65536, 1, 1), (1, 65536, 1), (1, 1, 2**32), (-1, 1, 1)):
            with self.assertRaises(ValueError):
                PacketBuilder(*ports)

    def test_lists(self) -> None:
        """Any iterable is a list, and what is in it a record if it has as many fields; the error says which one has no place."""
        sack = davgyuti.Sack(1, 2, (davgyuti.GapAckBlock(1, 2), davgyuti.GapAckBlock(3, 4)), (5,))
        for blocks, duplicates in (([(1, 2), iter((3, 4))], {5: 6}), (iter([[1, 2], (3, True + 3)]), iter((5,)))):
            builder: Any = PacketBuilder(1, 2, 3)
            builder.sack(1, 2, blocks, duplicates)
            self.assertEqual(davgyuti.Packet(builder.seal()).chunks(), (sack,))
        for error, write, text in (
            (ValueError, lambda it: it.sack(0, 0, [(1, 1), (65536, 1)]), "blocks[1].start has to be 0 to 65535, and is 65536"),
            (ValueError, lambda it: it.sack(0, 0, [(1, -1)]), "blocks[0].end has to be 0 to 65535, and is -1"),
            (ValueError, lambda it: it.sack(0, 0, [], [1, 2**32]), "duplicates[1] has to be 0 to 4294967295, and is 4294967296"),
            (ValueError, lambda it: it.sack(0, 0, [(1, 2, 3)]), "blocks[0] has to have 2 fields"),
            (ValueError, lambda it: it.i_forward_tsn(0, [(0, 1)]), "streams[0] has to have 3 fields"),
            (ValueError, lambda it: it.i_forward_tsn(0, [(0, 2**32, True)]), "streams[0].mid has to be 0 to 4294967295, and is 4294967296"),
            (ValueError, lambda it: it.forward_tsn(0, [(0, -1)]), "streams[0].ssn has to be 0 to 65535, and is -1"),
            (TypeError, lambda it: it.sack(0, 0, 7), "'int' object is not iterable"),
            (TypeError, lambda it: it.sack(0, 0, [7]), "'int' object is not iterable"),
            (TypeError, lambda it: it.add(davgyuti.Init(1, 2, 3, 4, 5, (b"",))), "bytes is no parameter"),  # type: ignore[arg-type]
            (TypeError, lambda it: it.add(davgyuti.Abort((davgyuti.SsnTsnReset(1),))), "SsnTsnReset is no error cause"),  # type: ignore[arg-type]
            (TypeError, lambda it: it.add(davgyuti.NoUserData(1)), "NoUserData is no chunk"),
        ):
            with self.subTest(text):
                self.refused(error, write, text)

    def test_arguments(self) -> None:
        """A method takes the fields of its kind, with its defaults, by whichever name is equal."""
        for kind in HINTS:
            method = getattr(PacketBuilder, kind.type.name.lower()) if issubclass(kind, _kinds.ChunkPart) else None
            if method is None or kind in (davgyuti.Heartbeat, davgyuti.HeartbeatAck, davgyuti.Abort):
                continue
            words = [*inspect.signature(method).parameters.values()][1:]
            own = {it.name: it for it in fields(kind) if it.name not in ("offset", "parameters", "causes")}
            self.assertEqual({it.name for it in words}, {*own})
            needed: dict[str, Any] = {}
            for number, it in enumerate(words, 1):
                default = own[it.name].default
                self.assertEqual(it.default, it.empty if default is MISSING else default)
                if default is MISSING:
                    needed["".join(it.name)] = b"a" if HINTS[kind][it.name] is bytes else number
            more = {it.name: () for it in fields(kind) if it.name in ("parameters", "causes")}
            builder, other = PacketBuilder(1, 2, 3), PacketBuilder(1, 2, 3)
            writer = method(builder, **needed)
            other.add(kind(**needed, **more))
            self.assertEqual(bytes(builder), bytes(other))
            self.assertEqual(isinstance(writer, davgyuti.ChunkWriter), bool(more))
            for name in needed:
                without = {it: value for it, value in needed.items() if it != name}
                self.refused(TypeError, lambda it: method(it, **without), f"{kind.__name__} needs {name}")
            self.refused(TypeError, lambda it: method(it, **needed, other=1), f"{kind.__name__} has no other")
            self.refused(TypeError, lambda it: method(it, *range(9)), "arguments without a name, and got 9")
        self.refused(TypeError, lambda it: it.sack(1, 2, a_rwnd=3), "Sack got a_rwnd twice")
        self.assertRaisesRegex(TypeError, "^a PacketBuilder makes it$", davgyuti.ChunkWriter)
        for words in ((), (1,), (1, 2, 3, 4)):
            self.assertRaises(TypeError, PacketBuilder, *words)
            self.refused(TypeError, lambda it: it.reset(*words))
        builder = PacketBuilder(verification_tag=3, source_port=1, destination_port=2, limit=12)
        self.assertEqual((bytes(builder), builder.limit), (bytes(PacketBuilder(1, 2, 3)), 12))
        self.assertEqual(PacketBuilder(1, 2, 3, limit=2**100).limit, 65532)
        self.assertRaises(TypeError, PacketBuilder, 1, 2, 3, limit="12")

    def test_what_a_number_does(self) -> None:
        """What runs while a chunk is written may write to the same builder: that comes before it, whole."""

        class Writes:
            def __index__(self) -> int:
                builder.add(davgyuti.CookieAck())
                return 7

        builder: Any = PacketBuilder(1, 2, 3)
        builder.shutdown(Writes())
        self.assertEqual(davgyuti.Packet(builder.seal()).chunks(), (davgyuti.CookieAck(), davgyuti.Shutdown(7)))

    def test_subclasses(self) -> None:
        self.assertEqual(bytes(type("Mine", (davgyuti.Shutdown,), {})(7)), bytes(davgyuti.Shutdown(7)))

    def test_not_begun(self) -> None:
        builder = PacketBuilder.__new__(PacketBuilder)
        self.refused(davgyuti.NoRoom, lambda it: it.cookie_ack(), builder=builder)
        self.refused(davgyuti.NoRoom, lambda it: it.reset(1, 2, 3), builder=builder)

    def test_values(self) -> None:
        builder = PacketBuilder(1, 2, 3)
        builder.abort("zu sp\u00e4t")
        self.assertEqual(bytes(builder)[16:], b"\0\x0c\0\x0czu sp\xc3\xa4t")
        self.refused(davgyuti.BadValue, lambda it: it.abort(b"\xff"))
        self.refused(davgyuti.BadValue, lambda it: it.abort("\ud800"))
        unknown = davgyuti.ReConfigResponse(0, 7)  # type: ignore[arg-type]
        self.refused(davgyuti.BadValue, lambda it: it.add(davgyuti.ReConfig((unknown,))))
        self.refused(davgyuti.BadValue, lambda it: it.sack(0, 0, [(1, 1)] * 20000))
        self.refused(davgyuti.BadValue, lambda it: it.chunk(200, 0, bytes(10**6)))

    def test_texts(self) -> None:
        self.refused(davgyuti.NoRoom, lambda it: it.cookie_echo(bytes(65513)), "no room: 65520 bytes more, after 16 of at most 65532")
        self.refused(TypeError, lambda it: it.cookie_echo("abc"))  # type: ignore[arg-type]


class Reset(unittest.TestCase):
    def test_reset(self) -> None:
        builder = davgyuti.PacketBuilder(1, 2, 3, limit=6000)
        builder.cookie_echo(bytes(5000))
        error = builder.error()
        builder.reset(4, 5, 6)
        self.assertEqual((bytes(builder), builder.limit), (bytes(davgyuti.PacketBuilder(4, 5, 6)), 6000))
        with self.assertRaises(davgyuti.BadPlace):
            error.cause(davgyuti.NoUserData(1))
        builder.cookie_ack()
        other = davgyuti.PacketBuilder(4, 5, 6)
        other.cookie_ack()
        self.assertEqual(builder.seal(), other.seal())

    def test_header_alone(self) -> None:
        builder = davgyuti.PacketBuilder(1, 2, 3)
        builder.cookie_echo(bytes(3000))
        # (the checksum is in what was sealed alone)
        self.assertEqual((davgyuti.seal(bytes(builder)), bytes(builder)[8:12]), (builder.seal(), bytes(4)))
        for wrong in ((7, 65536, 8), (7, 8, 2**32), (7, "a", 8)):
            builder.reset(7, 8, 9)
            with self.assertRaises((ValueError, TypeError)):
                builder.reset(*wrong)  # type: ignore[arg-type]
            self.assertEqual(davgyuti.header(builder.seal()), davgyuti.Header(7, 8, 9, davgyuti.word(bytes(builder))))


if __name__ == "__main__":
    unittest.main()
