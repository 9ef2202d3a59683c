"""Programs by name: reading descriptions, typed clients and typed servers, each against the other, against words, and against the programs of C where TALLY_C names
the folder of `server` and `client`."""
import asyncio
import enum
import os
import pathlib
import pickle
import pydoc
import random
import subprocess
import threading
import types
import unittest

import xns
from relay import bound
from servers import CLIENT, SERVER
from test_tally import C, Serving, total
from xns import _types

EXAMPLES = pathlib.Path(__file__).resolve().parents[2] / "examples"
TALLY = EXAMPLES / "courier" / "tally.courier"
OLD_TALLY = b"Tally: PROGRAM 7 VERSION 1 = BEGIN Add: PROCEDURE [amount: CARDINAL] RETURNS [total: LONG CARDINAL] = 1; END."
SHAPES = b"""Shapes: PROGRAM 4660 VERSION 2 =
BEGIN
    most: CARDINAL = 3;
    Color: TYPE = {red(0), green(7)};
    Point: TYPE = RECORD [x, y: INTEGER];
    Lost: ERROR [why: STRING, code: UNSPECIFIED, args: BOOLEAN] = 9;
    Draw: PROCEDURE [points: SEQUENCE most OF Point, color: Color] RETURNS [done: BOOLEAN, last: Point] REPORTS [Lost] = 5;
    Ask: PROCEDURE [from: LONG INTEGER] RETURNS [one: CHOICE Color OF {red => LONG INTEGER, green => ARRAY 2 OF LONG CARDINAL}] = 6;
    Nothing: PROCEDURE = 7;
    Absent: PROCEDURE = 8;
END.
"""


class Service:
    """A tally by name."""

    def __init__(self, tally):
        self.tally, self.total = tally, 0

    def Add(self, amount):
        if self.total + amount > self.tally.most:
            raise self.tally.Limit(self.total)
        self.total += amount
        return self.total

    def Total(self):
        return self.total


class Drawing:
    def __init__(self, shapes):
        self.shapes = shapes

    def Draw(self, points, color):
        if color == self.shapes.Color.red:
            raise self.shapes.Lost(why=b"red\n", code=len(points), args=True)
        return True, points[-1]

    def Ask(self, from_):
        if from_ == 1:
            return "one"  # no value of the type
        return ("red", from_) if from_ < 0 else ("green", [from_, 4_000_000_000])

    def Nothing(self):
        pass


class ReadingTest(unittest.TestCase):
    def test_examples(self):
        programs = xns.read_programs(*sorted(path for path in (EXAMPLES / "courier").iterdir()))
        self.assertEqual(set(programs), {"Authentication", "Clearinghouse", "Tally", "Time"})
        self.assertEqual((programs["Tally"].number, programs["Tally"].version, programs["Tally"].most), (7, 2, 1_000_000))
        with self.assertRaises(KeyError):
            programs["Filing"]
        with self.assertRaises(AttributeError):
            programs["Tally"].Sub
        self.assertEqual(programs["Clearinghouse"].WhichArgument.second, 2)
        with self.assertRaises(AttributeError):
            programs["Clearinghouse"].StreamOfOrganization

    def test_faults(self):
        programs = xns.Programs()
        programs.read(SHAPES)
        for text, told in ((b"", "f:1:1 NoName"), (SHAPES, "f:1:1 DoubledProgram"), (b"A: PROGRAM 1 VERSION 1 = BEGIN\n a: TYPE = b; END.", "f:2:12 UnknownName")):
            with self.assertRaises(xns.WrongTextError) as raised:
                programs.read(text, "f")
            self.assertEqual(str(raised.exception), told)
            self.assertEqual(told, f"f:{raised.exception.line}:{raised.exception.column} {raised.exception.reason}")
        self.assertEqual(list(programs), ["Shapes"])
        with self.assertRaises(FileNotFoundError):
            xns.read_programs("/nowhere.courier")
        with open(TALLY, "rb") as opened:
            with self.assertRaises(TypeError):
                xns.read_programs(opened.fileno())
            self.assertIn(b"PROGRAM", opened.read())  # it is not closed

    def test_what_is_read_behind_what_was_freed(self):
        with xns.read_programs(TALLY) as programs:
            pass
        shapes = programs.read(SHAPES)
        self.assertEqual((shapes.name, shapes.number, shapes.version, list(programs)), ("Shapes", 4660, 2, ["Tally", "Shapes"]))
        self.assertIsNone(programs.call_text(7, 2, 1, [5]))
        self.assertEqual(programs.call_text(4660, 2, 7, []), "Shapes 4660.2 Nothing []")

    def test_texts(self):
        programs = xns.read_programs(TALLY)
        self.assertEqual(programs.call_text(7, 2, 1, [5]), "Tally 7.2 Add [amount: 5]")
        self.assertEqual(programs.return_text(7, 2, 1, [0, 5]), "Add [total: 5]")
        self.assertEqual(programs.abort_text(7, 2, 1, [0, 5]), "Limit [total: 5]")
        self.assertIsNone(programs.call_text(7, 1, 1, [5]))
        with self.assertRaises(xns.LeftOverError) as raised:
            programs.call_text(7, 2, 1, [5, 6])
        self.assertEqual(raised.exception.place, 1)

    def test_a_long_text(self):
        programs = xns.Programs()
        programs.read(b"Long: PROGRAM 1 VERSION 1 = BEGIN Say: PROCEDURE [what: STRING] = 0; END.")
        self.assertEqual(programs.call_text(1, 1, 0, xns.Writer().text(b"x" * 5000).words), f"Long 1.1 Say [what: \"{'x' * 5000}\"]")

    def test_types(self):
        shapes = xns.Programs().read(SHAPES)
        self.assertTrue(issubclass(shapes.Color, enum.IntEnum))
        self.assertEqual([(one.name, one) for one in shapes.Color], [("red", 0), ("green", 7)])
        self.assertEqual(shapes.Point(1, y=2), (1, 2))
        told = pydoc.plain(pydoc.render_doc(shapes.client(None)))
        self.assertIn("Draw(self, points: List[Shapes.Point], color: Shapes.Color) -> Shapes.DrawResults", told)
        self.assertIn("Ask(self, from_: int)", told)
        self.assertIn("Nothing(self) -> None", told)

    def test_errors_go_to_another_process(self):
        """One that could not would break a pool of processes."""
        lost = xns.Programs().read(SHAPES).Lost(b"red", 5, args=True)
        for error, wanted in (
            (xns.AbortedError(5, [1, 2]), ("error 5", 5, [1, 2])),
            (lost, (str(lost), 9, xns.Writer().text(b"red").cardinal(5).boolean(True).words)),
        ):
            told = pickle.loads(pickle.dumps(error))
            self.assertEqual((type(told), str(told), told.code, told.words), (xns.AbortedError, *wanted))
        for error in (xns.RejectedError(xns.Reject.NO_SUCH_PROCEDURE), xns.RejectedError(77, [5])):
            told = pickle.loads(pickle.dumps(error))
            self.assertEqual((str(told), told.reason, told.words), (str(error), error.reason, error.words))

    def test_names_of_python(self):
        own = xns.Programs().read(
            b"Own: PROGRAM 1 VERSION 1 = BEGIN import: ERROR [self: CARDINAL] = 1; None: ERROR = 2;"
            b" class: TYPE = RECORD [self, def: CARDINAL]; Say: PROCEDURE [self, lambda: CARDINAL] = 0; END."
        )
        error = getattr(own, "import")(self=5)
        self.assertEqual((error.self, type(error).__name__, str(getattr(own, "None")())), (5, "import_", "None_"))
        self.assertEqual(getattr(own, "class")(self=1, def_=2), (1, 2))
        told = []
        client = own.client(types.SimpleNamespace(call=lambda *call: told.append(call) or xns.Answer(0, xns.Kind.RETURN, 0, [])))
        client.Say(1, 2)
        client.Say(self=3, lambda_=4)
        self.assertEqual(told, [(1, 1, 0, [1, 2]), (1, 1, 0, [3, 4])])
        self.assertIn("Say(self_, self: int, lambda_: int) -> None", pydoc.plain(pydoc.render_doc(client)))


class ValuesTest(unittest.TestCase):
    """Values that are made at random, of each procedure and each error of the examples: the words that the module writes have a text, which C makes of them, and the text
    has the value again, and so have the words."""

    def value(self, one):
        """A value of the type."""
        if isinstance(one, _types.Record):
            return one.python(*[self.value(part) for _, part in one.components])
        if isinstance(one, _types.Choice):
            name, (_, part) = self.chance.choice(list(one._candidates.items()))
            return name, self.value(part)
        if isinstance(one, _types.Enumeration):
            return self.chance.choice(list(one.python))
        if isinstance(one, _types._Elements):
            return [self.value(one._element) for _ in range(one._count if one._is_array else self.chance.randint(0, min(one._count, 4)))]
        if isinstance(one, _types._Boolean):
            return self.chance.random() < 0.5
        if isinstance(one, _types._String):
            return bytes(self.chance.choice((34, 92, 0, 10, 32, 126, 127, 255, 65)) for _ in range(self.chance.randint(0, 9)))
        return self.chance.choice((one._low, one._high, self.chance.randint(one._low, one._high)))

    def is_the_same(self, record, value, text):
        """The text, behind its name, is of the value."""
        constant = _types.Constant(text)
        self.assertEqual(record.parse(constant), value)
        constant.end()

    def test_values(self):
        self.chance = random.Random(1)
        programs = xns.read_programs(*sorted(path for path in (EXAMPLES / "courier").iterdir()))
        programs.read(SHAPES)
        count = 0
        for program in programs.all:
            numbers = program.number, program.version
            for procedure in program.procedures.values():
                for record, text in ((procedure.arguments, programs.call_text), (procedure.results, programs.return_text)):
                    for _ in range(30):
                        value = self.value(record)
                        writer = xns.Writer()
                        record.write(writer, value, "")
                        told = text(*numbers, procedure.number, writer.words)
                        self.is_the_same(record, value, told[told.index("[") :])
                        reader = xns.Reader(writer.words)
                        self.assertEqual(record.read(reader), value)
                        reader.end()
                        count += 1
            for error in program._errors.values():
                value = self.value(error._record)
                told = programs.abort_text(*numbers, error._number, error(*value)._words)
                self.is_the_same(error._record, value, told[told.index("[") :])
                count += 1
        self.assertGreater(count, 500)


class Served(unittest.TestCase):
    """A typed server that runs, and clients of it."""

    def served(self, *servers, answer=None):
        udp, stops = bound(), threading.Event()
        self.addCleanup(udp.close)
        thread = threading.Thread(target=xns.serve, args=(udp, SERVER, servers, answer), kwargs={"stop": stops}, daemon=True)
        thread.start()
        self.addCleanup(thread.join, 10)
        self.addCleanup(stops.set)
        return udp.getsockname()

    def client(self, place):
        udp = bound()
        self.addCleanup(udp.close)
        client = xns.Client(udp, place, CLIENT, SERVER, timeout=30)
        self.addCleanup(client.close)
        return client


class ServedTest(Served):
    def test_a_tally(self):
        tally = xns.read_programs(TALLY)["Tally"]
        client = self.client(self.served(tally.server(Service(tally))))
        by_name = tally.client(client)
        self.assertEqual((by_name.Total(), by_name.Add(5), by_name.Add(amount=6), by_name.Total()), (0, 5, 11, 11))
        self.assertEqual(client.call(7, 2, 1, [1])[1:], (xns.Kind.RETURN, 0, [0, 12]))  # by words
        with self.assertRaises(tally.Limit) as raised:
            for _ in range(16):
                by_name.Add(65535)
        self.assertEqual((raised.exception.total, raised.exception.code, raised.exception.fields), (12 + 15 * 65535, 1, (983037,)))
        self.assertEqual(client.call(7, 2, 1, [65535])[1:], (xns.Kind.ABORT, 1, [14, 65533]))
        for words in ([], [1, 2]):
            self.assertEqual(client.call(7, 2, 1, words)[1:], (xns.Kind.REJECT, xns.Reject.INVALID_ARGUMENTS, []))
        self.assertEqual(client.call(7, 2, 3)[1:], (xns.Kind.REJECT, xns.Reject.NO_SUCH_PROCEDURE, []))
        for wrong, error in (((70000,), ValueError), ((-1,), ValueError), (("5",), TypeError), ((), TypeError), ((1, 2), TypeError)):
            with self.assertRaises(error):
                by_name.Add(*wrong)
        self.assertEqual(by_name.Total(), 983037)

    def test_shapes(self):
        shapes = xns.Programs().read(SHAPES)
        by_name = shapes.client(self.client(self.served(shapes.server(Drawing(shapes)))))
        drawn = by_name.Draw([(1, -2), shapes.Point(3, 4)], shapes.Color.green)
        self.assertEqual((drawn, drawn.last.y), ((True, (3, 4)), 4))
        self.assertEqual((by_name.Ask(-5), by_name.Ask(from_=7), by_name.Nothing()), (("red", -5), ("green", [7, 4_000_000_000]), None))
        with self.assertRaises(shapes.Lost) as raised:
            by_name.Draw([], 0)
        self.assertEqual((raised.exception.why, raised.exception.code, raised.exception.args), (b"red\n", 0, True))
        for points, color in (([(1, 2)] * 4, 7), ([(1, 32768)], 7), ([], 5)):
            with self.assertRaisesRegex(ValueError, "points|color"):
                by_name.Draw(points, color)
        for points, color in (([1], 7), (b"", 7), ([(1, b"")], 7), ([], "green")):
            with self.assertRaisesRegex(TypeError, "points|color"):
                by_name.Draw(points, color)
        with self.assertRaises(xns.RejectedError) as rejected:
            by_name.Absent()
        self.assertEqual(rejected.exception.reason, xns.Reject.NO_SUCH_PROCEDURE)
        with self.assertLogs("xns", "ERROR"), self.assertRaises(xns.RejectedError) as rejected:
            by_name.Ask(1)
        self.assertEqual(rejected.exception.reason, xns.UNSPECIFIED)

    def test_several_programs(self):
        """Two versions of one program, another program, and one by words: each call comes to the server of its program and version."""
        old, new, shapes = xns.Programs().read(OLD_TALLY), xns.read_programs(TALLY)["Tally"], xns.Programs().read(SHAPES)
        place = self.served(old.server(Service(new)), (9, 1, 1), new.server(Service(new)), shapes.server(Drawing(shapes)), answer=lambda call: xns.returns(call.words))
        client = self.client(place)
        self.assertEqual((old.client(client).Add(5), new.client(client).Add(7), new.client(client).Total()), (5, 7, 7))
        self.assertEqual(shapes.client(client).Draw([(1, 2)], shapes.Color.green).last, (1, 2))
        self.assertEqual(client.call(9, 1, 4, [8, 9])[1:], (xns.Kind.RETURN, 0, [8, 9]))
        self.assertEqual(client.call(7, 1, 2)[1:], (xns.Kind.REJECT, xns.Reject.NO_SUCH_PROCEDURE, []))  # version 1 has no Total
        self.assertEqual(client.call(8, 1, 1)[1:3], (xns.Kind.REJECT, xns.Reject.NO_SUCH_PROGRAM))
        self.assertEqual(client.call(7, 3, 1)[1:], (xns.Kind.REJECT, xns.Reject.NO_SUCH_VERSION, [1, 2]))

    def test_programs_that_are_not_served_together(self):
        tally = xns.read_programs(TALLY)["Tally"]
        later = xns.Programs().read(OLD_TALLY.replace(b"VERSION 1", b"VERSION 4"))
        one = tally.server(Service(tally))
        with bound() as udp:
            for programs, answer, error, text in (
                ([one, one], None, ValueError, "two servers of program 7 version 2"),
                ([one, later.server(Service(tally))], None, ValueError, r"do not follow each other: \[2, 4\]"),
                ([one, (7, 1, 1)], lambda call: xns.returns(), ValueError, "program 7 is served by a typed server, and by another one"),
                ([one, (9, 1, 1)], None, TypeError, "answer is no function"),
                ([], None, TypeError, "answer is no function"),
            ):
                with self.assertRaisesRegex(error, text):
                    xns.serve(udp, SERVER, programs, answer)
                with self.assertRaisesRegex(error, text):
                    asyncio.run(xns.serve_async(udp, SERVER, programs, answer))

    def test_what_is_not_declared(self):
        shapes = xns.Programs().read(SHAPES)
        answers = {5: xns.aborts(4, [1, 2]), 6: xns.returns([7, 0, 1]), 7: xns.returns([1]), 8: xns.aborts(9, [5])}
        udp, stops = bound(), threading.Event()
        self.addCleanup(udp.close)
        thread = threading.Thread(target=xns.serve, args=(udp, SERVER, [], lambda call: answers[call.procedure], None, stops), daemon=True)
        thread.start()
        self.addCleanup(thread.join, 10)
        self.addCleanup(stops.set)
        by_name = shapes.client(self.client(udp.getsockname()))
        with self.assertRaises(xns.AbortedError) as raised:
            by_name.Draw([], 7)
        self.assertEqual((type(raised.exception), raised.exception.code, raised.exception.words), (xns.AbortedError, 4, [1, 2]))
        with self.assertRaises(xns.TruncatedError):
            by_name.Ask(0)
        with self.assertRaises(xns.LeftOverError):
            by_name.Nothing()
        with self.assertRaises(xns.TruncatedError):
            by_name.Absent()

    def test_in_a_loop_of_asyncio(self):
        tally = xns.read_programs(TALLY)["Tally"]

        class Later(Service):
            async def Add(self, amount):
                await asyncio.sleep(0)
                return super().Add(amount)

        async def both():
            stops = asyncio.Event()
            with bound() as udp, bound() as other:
                serving = asyncio.ensure_future(xns.serve_async(udp, SERVER, [tally.server(Later(tally))], stop=stops))
                async with xns.AsyncClient(other, udp.getsockname(), CLIENT, SERVER, timeout=30) as client:
                    by_name = tally.client(client)
                    told = [await by_name.Add(5), await by_name.Total()]
                    try:
                        while True:
                            await by_name.Add(65535)
                    except tally.Limit as error:
                        told.append(error.total)
                stops.set()
                await serving
            return told

        self.assertEqual(asyncio.run(both()), [5, 5, 983030])


@unittest.skipUnless(C, "TALLY_C names no programs of C")
class CrosswiseTest(Served):
    def test_a_typed_client_and_a_server_of_c(self):
        tally = xns.Programs().read(OLD_TALLY)
        with Serving(C[0]) as serving:
            client = self.client(serving.place)
            self.assertEqual([tally.client(client).Add(amount) for amount in (5, 65535, 1)], [5, 65540, 65541])
            client.close()

    def test_a_client_of_c_and_a_typed_server(self):
        tally = xns.Programs().read(OLD_TALLY)

        class Sums:
            total = 0

            def Add(self, amount):
                self.total += amount
                return self.total

        _, port = self.served(tally.server(Sums()))
        ended = subprocess.run([*C[1], str(port), "5", "65535", "1"], stdout=subprocess.PIPE, text=True, timeout=60, env=os.environ)
        self.assertEqual([total(line) for line in ended.stdout.splitlines()], [5, 65540, 65541])


if __name__ == "__main__":
    unittest.main()
