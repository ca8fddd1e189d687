"""Tests of the package over the library and over `doqs live`, against `doqs run`.

    python3 -m unittest discover python/tests        # from the top of the repository, after checks/python_package has built the package

DOQS names the program, else that of crates/doqs/out is taken, else that of the path.
"""

import doctest
import importlib.util
import os
import random
import re
import resource
import signal
import subprocess
import sys
import tempfile
import threading
import unittest
from contextlib import suppress
from datetime import date, datetime
from decimal import Decimal, localcontext
from pathlib import Path

import doqsheley
from doqsheley import Fault, Price, Rejected, Session, Unpriced, errors, events, values

HERE = Path(__file__).resolve().parent
TOP = HERE.parents[1]
MARKET = "market.toml"
BUILT = ":".join(str(TOP / "crates" / it / "out") for it in ("doqs",))


def setUpModule():
    os.chdir(TOP / "examples" / "desk")
    os.environ["PATH"] = f"{BUILT}:{os.environ['PATH']}"


def played(market, script, *words):
    """What `doqs run` writes."""
    program = os.environ.get("DOQS") or "doqs"
    return subprocess.run([program, "run", market, script, *words], stdout=subprocess.PIPE, check=True).stdout


# A curve whose two helpers end on one day.
TWINS = """version = 1
today = "2025-09-22"
quotes = "{quotes}"
[[calendar]]
kind = "null"
name = "all"
[[object]]
kind = "curve"
name = "twins"
calendar = "all"
settlement = 0
helpers = [
  {{kind = "swap", quote = "r0", tenor = "1Y", every = "1Y", convention = "preceding", counter = "act365"}},
  {{kind = "swap", quote = "r1", tenor = "1Y", every = "3M", convention = "preceding", counter = "act365"}},
]
"""

# Lines, the ask that is refused after them, and the cause with what it is about and the computations.
CAUSES = [
    ("quote q unset; stock t q", "t", "unset", "q", 0),
    ("handle h quote; stock t h", "t", "empty", "h", 0),
    ("engine state none", "state", "noengine", "state", 0),
    ("today 2024-04-15", "payer", "nofixing", "euribor 2024-04-12", 2),
    ("", "df euro 2024-01-16", "before", "euro 2024-01-16", 1),
    ("", "df euro 2044-01-20", "past", "euro 2044-01-20", 1),
    ("set s20 9", "book", "discount", "euro 14", 1),
    ("set s5 -0.9", "book", "negative", "euro 10", 1),
    ("set s5 11", "euro", "raterange", "euro", 1),
    ("today 2199-12-01", "euro", "daterange", "euro", 1),
    ("quote q 1000000000; sum p q q; stock t p", "t", "toolarge", "p", 0),
    ("freeze share", "share", "unpriced", "share", 0),
]

# Lines, the line that is refused after them, and the refusal.
REFUSALS = [
    ("", "quote book 1", "taken", "book"),
    ("", "ask nobody", "unknown", "nobody"),
    ("", "set book 1", "kind", "book"),
    ("composite k; member k book 1", "member book k 1", "cycle", ""),
    ("", "drop share", "inuse", "book"),
    ("fixing euribor 2024-01-15 0.03", "fixing euribor 2024-01-15 0.04", "exists", "0.030000000"),
    ("action a; end; watch w a; register w acme", "register w acme", "registered", ""),
    ("action a; end; watch w a", "unregister w acme", "notregistered", ""),
    ("ask book; defer; set acme 42", "recalc book", "deferred", "acme"),
]

# Lines, the faulty line after them, and the kind.
FAULTS = [
    ("", "ask bo\x07ok", "byte"),
    ("", "ask b\u00fcro", "byte"),
    ("", "sell book", "word"),
    ("", "ask", "count"),
    ("action a", "action b", "nested"),
    ("", "end", "end"),
    ("", "ask 1", "name"),
    ("action a; end", "action a", "twice"),
    ("", "set acme 1,5", "number"),
    ("", "today 2024-02-30", "date"),
    ("", "forward book On", "choice"),
    ("", "watch w nobody", "noaction"),
    ("", "#" * 65537, "toolong"),
]


def send(it, lines):
    for line in filter(None, lines.split("; ")):
        it.send(line)


# Without the extension the tests over the library are left out.
HAS_LIBRARY = importlib.util.find_spec("doqsheley._desk") is not None


def via_library(it):
    return it._back is None


class Both:
    """Each test is made over the library and over the pipe."""

    via = "library"

    def setUp(self):
        if self.via == "library" and not HAS_LIBRARY:
            self.skipTest("there is no extension")

    def session(self, *words, **named):
        return Session(*words, via=self.via, **named)


class Answers(Both, unittest.TestCase):
    def test_a_price(self):
        with self.session(MARKET) as it:
            self.assertEqual(it.set("s5", "0.0253"), [])
            self.assertEqual(it.ask("book"), Price("book", Decimal("5497271.244744"), "fresh", 7))
            self.assertEqual(it.set("acme", Decimal("4.2E1")), [])
            self.assertEqual(it.ask("share"), Price("share", Decimal(42), "fresh", 1))
            it.freeze("share")
            it.set("acme", 41)
            self.assertEqual(it.ask("share"), Price("share", Decimal(42), "frozen", 0))
            self.assertEqual(it.ask("book").mark, "held")
            self.assertEqual(it.recalc("share"), [Price("share", Decimal(41), "recalc", 1)])
            it.defer()
            it.set("s5", 0.0252)
            self.assertEqual(it.ask("state").mark, "late")
            self.assertRaises(TypeError, it.ask, "euro")
            self.assertRaises(TypeError, it.ask_units, "euro")
            self.assertRaises(TypeError, it.curve, "state")
            self.assertRaises(ValueError, it.send, "ask share\nask book")

    def test_a_price_is_exact_in_any_context(self):
        with self.session(MARKET) as it, localcontext() as context:
            context.prec = 2
            self.assertEqual(str(it.ask("book").value), "5495252.776163")
            self.assertEqual(str(it.df("euro", "2029-01-17").value), "0.883430079917")

    def test_arguments_by_name(self):
        with self.session(MARKET) as it:
            self.assertEqual(it.set(quote="s5", value="0.0253"), [])
            self.assertEqual(it.set("s5", value=0.0253), [])
            self.assertEqual(it.ask(name="book").value, Decimal("5497271.244744"))
            for day in ("2029-01-17", date(2029, 1, 17), datetime(2029, 1, 17, 12, 30)):
                factor = it.df(curve="euro", day=day)
                self.assertEqual((factor, it.df("euro", day)), (factor._replace(runs=0),) * 2)
                self.assertEqual(factor.day, date(2029, 1, 17))
            for call in (it.ask, it.set, it.df):
                self.assertRaises(TypeError, call)
                self.assertRaises(TypeError, call, "a", "b", "c")
            self.assertRaises(TypeError, it.ask, book="book")

    def test_a_price_of_any_size(self):
        with self.session(MARKET) as it:
            it.quote("q", 0)
            it.stock("t", "q")
            for name, member in (("k", "t"), ("kk", "k")):
                it.composite(name)
                it.member(name, member, 1000000)
            for value in ("0", "1", "-1", "0.000001", "0.000000001", "999.999999999", "-1000000000", "1000000000", "-123456.789012345"):
                it.set("q", value)
                shares = Decimal(value).quantize(Decimal("0.000001"), rounding="ROUND_HALF_UP")
                self.assertEqual(str(it.ask("t").value), str(abs(shares) if not shares else shares))
                for name in ("k", "kk"):
                    try:
                        price = it.ask(name).value
                    except errors.ValueTooLarge:
                        self.assertRaises(errors.ValueTooLarge, it.ask_units, name)
                        continue
                    self.assertEqual(it.ask_units(name=name), int(price.scaleb(6)))
                    self.assertEqual(it.ask_units(name), int(price.scaleb(6)))
                    with tempfile.TemporaryDirectory() as room:
                        Path(room, "day").write_bytes(it.script())
                        self.assertEqual(played(MARKET, f"{room}/day").split()[-3].decode(), str(price))

    def test_a_curve(self):
        with self.session(MARKET) as it:
            curve = it.curve("euro")
            self.assertEqual(curve.nodes[:2], ((date(2024, 1, 17), 1), (date(2024, 1, 24), Decimal("0.999248065831"))))
            self.assertEqual((len(curve.nodes), curve.mark, curve.runs), (15, "fresh", 1))
            factor = it.df("euro", curve.nodes[1].day)
            self.assertEqual(factor, doqsheley.Factor("euro", date(2024, 1, 24), Decimal("0.999248065831"), "fresh", 0))
            self.assertIn("<td>2024-01-24</td>", curve._repr_html_())
            self.assertIn("<polyline", curve._repr_svg_())

    def test_the_count_of_computations_of_a_refused_ask(self):
        with self.session(MARKET) as it:
            self.assertEqual(it.ask("book").runs, 7)
            it.today("2024-04-15")
            for runs in (4, 1):
                with self.assertRaises(errors.FixingMissing) as got:
                    it.ask("book")
                self.assertEqual(got.exception.runs, runs)
            script = it.script()
        with tempfile.TemporaryDirectory() as room:
            Path(room, "day").write_bytes(script)
            self.assertIn(b"nofixing euribor 2024-04-12 4\nbook refused nofixing euribor 2024-04-12 1\n", played(MARKET, f"{room}/day"))

    def test_each_command(self):
        with self.session(MARKET) as it:
            it.quote("q", 3)
            it.quote("none_yet")
            it.sum("z", "q", "acme")
            it.difference("y", "z", "q")
            it.handle("h", "quote")
            it.link("h", "y")
            it.stock("t", "h")
            self.assertEqual(it.ask("t").value, Decimal("41.5"))
            it.composite("k")
            it.member("k", "t", -2)
            self.assertEqual(it.ask("k").value, -83)
            it.unlink("h")
            self.assertRaises(errors.HandleEmpty, it.ask, "k")
            it.unset("acme")
            self.assertRaises(errors.QuoteUnset, it.ask, "share")
            it.engine("state", None)
            self.assertRaises(errors.EngineMissing, it.ask, "state")
            it.engine("state", "discounting")
            it.fixing("euribor", date(2024, 1, 15), "0.039")
            it.today(date(2024, 1, 16))
            it.forward("t", True)
            it.thaw("t")
            it.defer()
            it.resume()
            it.action("a", ["ask share"])
            it.watch("w", "a", on=["acme"])
            self.assertEqual([type(event) for event in it.set("acme", 1)], [Price])
            it.unregister("w", "acme")
            self.assertEqual(it.set("acme", 2), [])
            it.register("w", "acme")
            it.drop("k")
            self.assertRaises(errors.NameUnknown, it.ask, "k")

    def test_names_that_are_words_of_lines(self):
        with self.session(MARKET) as it:
            for name in ("refused", "over", "fault", "ready"):
                send(it, f"stock {name} acme")
                self.assertEqual(it.ask(name), Price(name, Decimal("41.5"), "fresh", 1))
                send(it, f"quote e_{name} unset; stock r_{name} e_{name}; drop {name}; stock {name} e_{name}")
                with self.assertRaises(errors.QuoteUnset) as got:
                    it.ask(name)
                self.assertEqual(got.exception.name, name)

    def test_words_that_are_no_words_of_a_line(self):
        with self.session(MARKET) as it:
            for name in ("book 1", "book#", "book\task", "", "book\n"):
                self.assertRaises(ValueError, it.ask, name)
                self.assertRaises(ValueError, it.freeze, name)
            self.assertRaises(ValueError, it.set, "acme", "1 2")

    def test_the_numbers_that_are_taken(self):
        pick = random.Random(83)

        def numbers():
            for text in ("0", "-0", "00.10", "1000000000", "1000000000.000000001", "-1000000000", "9999999999", "1.", ".5", "", "-", "1e3",
                         "+1", " 1", "1,5", "0.0000000001", "\u0663", "1_0"):  # fmt: skip
                yield text
                if text.isascii():
                    with suppress(ArithmeticError):
                        yield Decimal(text)
            yield from (0, -1, 10**9, 10**9 + 1, -(10**9), 2**70, 0.0, -0.0, 0.1, 0.1 + 0.2, 1e-9, 5e-10, 1e9, 1e22, 999999.999999999)
            yield from (float("inf"), float("nan"), Decimal("NaN"), Decimal("1E-9"), Decimal("1E-10"), Decimal("4.2E1"), Decimal("1E+3"))
            for _ in range(2000):
                units = pick.choice([pick.randint(-(10**18), 10**18), pick.randint(-(10**12), 10**12), pick.randint(-(10**9), 10**9)])
                exact = Decimal(units).scaleb(-9)
                yield pick.choice([exact, f"{exact:f}", float(exact), float(exact) * (1 + 2**-52), units, float(exact) + 1e-10])

        told = {}
        with self.session(MARKET) as it:
            it.unset("acme")
            for number in numbers():
                try:
                    wanted = values.number_text(number)
                except errors.InexactValue as error:
                    self.assertEqual(error.value, Decimal(number)) if number == number else None
                    self.assertRaises(errors.InexactValue, it.set, "acme", number)
                    told["inexact"] = told.get("inexact", 0) + 1
                    continue
                before = it.script()
                try:
                    it.set("acme", number)
                except (Fault, ValueError) as error:
                    if isinstance(error, Fault):
                        self.assertRaises(Fault, it.send, f"set acme {wanted}")
                    else:
                        self.assertNotRegex(wanted, "^[^ ]+$")
                    self.assertEqual(it.script(), before)
                    told["fault"] = told.get("fault", 0) + 1
                    continue
                line = it.script()[len(before) :].decode()
                word, name, shown = line.split()
                self.assertEqual((word, name, Decimal(shown)), ("set", "acme", Decimal(wanted)), repr(number))
                it.send(f"set acme {wanted}")
                if via_library(it):
                    self.assertEqual(dict(it.quotes())["acme"], Decimal(shown))
                told["taken"] = told.get("taken", 0) + 1
        self.assertGreater(min(told.get(it, 0) for it in ("inexact", "fault", "taken")), 10, told)
        self.assertRaises(TypeError, values.number_text, True)

    def test_many_lines(self):
        with self.session(MARKET) as it:
            wanted = []
            for number in range(90000 if via_library(it) else 20000):
                it.set("acme", number)
                wanted.append(b"set acme %d\n" % number)
            self.assertEqual(it.script(), b"".join(wanted))

    def test_watchers(self):
        with self.session(MARKET) as it:
            it.watch("limit", action=["ask book", "set nobody 1"], on=["book"])
            it.ask("book")
            book, refused = it.set("s5", "0.0253")
            self.assertEqual(book, Price("book", Decimal("5497271.244744"), "fresh", 6))
            self.assertIsInstance(refused, errors.NameUnknown)
            self.assertEqual((refused.word, refused.refusal, refused.about), ("set", "unknown", ("nobody",)))
            self.assertEqual(it.set("s5", "0.02530"), [])
            it.drop("limit")
            it.watch("limit", action=["unset acme", "ask share"], on=["acme"])
            for share in it.set("acme", "42"):
                self.assertEqual((share.name, share.cause, share.about, share.runs), ("share", "unset", ("acme",), 0))
            it.drop("limit")
            it.watch("one", action=["set acme 1"], on=["acme"])
            it.watch("two", action=["set acme 2"], on=["acme"])
            self.assertEqual(it.set("acme", "3"), [doqsheley.Over("one")])
            with self.assertRaises(Fault):
                it.watch("three", action=["ask"], on=["acme"])
            self.assertEqual(it.ask("share").mark, "fresh")

    def test_a_script_and_an_order(self):
        os.chdir(TOP / "examples" / "limit_watch")
        self.addCleanup(os.chdir, TOP / "examples" / "desk")
        market, script = "market.toml", "script.txt"
        for order in (None, "last", 7):
            words = [] if order is None else ["--order", str(order)]
            with tempfile.TemporaryDirectory() as room:
                names = {"journal": f"{room}/day", "transcript": f"{room}/written"}
                with self.session(market, script, order=order, **names) as it:
                    self.assertEqual(it.opening[0].name, "book")
                    it.ask("book")
                    self.assertEqual(it.script(), Path(room, "day").read_bytes())
                self.assertEqual(Path(room, "written").read_bytes(), played(market, f"{room}/day", *words))

    def test_texts(self):
        texts = [Path(it).read_bytes() for it in ("market.toml", "quotes.csv", "fixings.csv")]
        with Session.from_texts(*texts, script="set s5 0.0253\nask book", via=self.via) as it:
            self.assertEqual(it.opening, [Price("book", Decimal("5497271.244744"), "fresh", 7)])
            self.assertEqual(it.ask("book").runs, 0)
            self.assertTrue(it.script().startswith(b"set s5 0.0253\nask book\n"))


class Refusals(Both, unittest.TestCase):
    def test_each_cause(self):
        for lines, ask, cause, about, runs in CAUSES:
            with self.subTest(cause), self.session(MARKET) as it:
                send(it, lines)
                with self.assertRaises(Unpriced) as got:
                    it.df(*ask.split()[1:]) if ask.startswith("df ") else it.ask(ask)
                told = got.exception
                self.assertIs(type(told), errors.UNPRICED[cause])
                self.assertEqual((told.cause, told.about, told.runs), (cause, tuple(about.split()), runs))
                self.assertEqual(told.name, ask.split()[-2] if ask.startswith("df ") else ask)
                self.assertNotIn("{", str(told))
                self.assertNotIsInstance(told, KeyError)

    def test_helpers_that_end_together(self):
        with tempfile.TemporaryDirectory() as room:
            Path(room, "quotes.csv").write_text("name,value\nr0,0.03\nr1,0.03\n")
            Path(room, "market.toml").write_text(TWINS.format(quotes=f"{room}/quotes.csv"))
            with self.session(f"{room}/market.toml") as it, self.assertRaises(errors.PillarOrder) as got:
                it.curve("twins")
        self.assertEqual(got.exception.about, ("twins", "2"))

    def test_each_refusal(self):
        for lines, line, refusal, about in REFUSALS:
            with self.subTest(refusal), self.session(MARKET) as it:
                send(it, lines)
                with self.assertRaises(Rejected) as got:
                    it.send(line)
                told = got.exception
                self.assertIs(type(told), errors.REJECTED[refusal])
                self.assertEqual((told.word, told.refusal, " ".join(told.about)), (line.split()[0], refusal, about))
                self.assertNotIn("{", str(told))

    def test_too_many_objects(self):
        with self.session(MARKET) as it, self.assertRaises(errors.TooManyObjects):
            for number in range(4097):
                it.quote(f"q{number}", 1)

    def test_each_fault(self):
        for lines, line, kind in FAULTS:
            with self.subTest(kind), suppress(Fault), self.session(MARKET) as it:
                send(it, lines)
                with self.assertRaises(Fault) as got:
                    it.send(line)
                number = 1 + len(lines.split("; ")) if lines else 1
                self.assertEqual((got.exception.line, got.exception.kind), (number, kind))
                if not lines.endswith("action a"):
                    self.assertEqual(it.ask("share").value, Decimal("41.5"))

    def test_too_many_names(self):
        with self.session(MARKET) as it, self.assertRaises(Fault) as got:
            for number in range(65536):
                with suppress(Rejected):
                    it.send(f"sum a{number} b{number} c{number}")
        self.assertEqual(got.exception.kind, "names")

    def test_an_action_that_is_left_open(self):
        with tempfile.TemporaryDirectory() as room:
            it = self.session(MARKET, journal=f"{room}/day", transcript=f"{room}/written")
            send(it, "ask book; action a; ask share")
            with self.assertRaises(Fault) as got:
                it.close()
            self.assertEqual((got.exception.line, got.exception.kind), (2, "unclosed"))
            self.assertEqual(played(MARKET, f"{room}/day"), Path(room, "written").read_bytes())

    def test_an_ask_in_an_action(self):
        with self.session(MARKET) as it:
            it.send("action a")
            for call in (lambda: it.ask("share"), lambda: it.ask_units("share"), lambda: it.curve("euro"), lambda: it.df("euro", "2029-01-17")):
                self.assertRaises(doqsheley.DeskError, call)
            send(it, "ask share; end")
            self.assertEqual(it.script(), b"action a\nask share\nend\n")

    def test_every_word_of_the_pages_has_a_class(self):
        transcript = (TOP / "docs/reference/transcript.md").read_text()
        self.assertEqual(words_of(transcript, "CAUSE"), set(errors.UNPRICED))
        self.assertEqual(words_of(transcript, "REFUSAL"), set(errors.REJECTED))
        faults = words_of((TOP / "docs/reference/script.md").read_text(), "KIND")
        live = words_of((TOP / "docs/reference/live.md").read_text(), "KIND")
        self.assertEqual(faults | live | {"unended"}, set(Fault.WORDS))
        self.assertEqual(words_of(transcript, "MARK"), set(doqsheley.MARKS))
        for it in [*errors.UNPRICED.values(), *errors.REJECTED.values()]:
            self.assertIs(getattr(doqsheley, it.__name__), it)

    def test_every_command_has_a_method(self):
        page = (TOP / "docs/reference/script.md").read_text()
        commands = {cell.split()[0] for row in table_of(page, "Command") for cell in re.findall("`([^`]*)`", row)}
        self.assertGreater(len(commands), 25)
        self.assertEqual([it for it in sorted(commands | {"action"}) if not callable(getattr(Session, it, None))], [])

    def test_every_word_is_tried(self):
        self.assertEqual({it[2] for it in CAUSES} | {"pillar"}, set(errors.UNPRICED))
        self.assertEqual({it[2] for it in REFUSALS} | {"toomany"}, set(errors.REJECTED))
        self.assertEqual({it[2] for it in FAULTS} | {"names", "unclosed", "unended"}, set(Fault.WORDS))


def table_of(page, heading):
    """The first cells of the table of a page whose first column has this heading."""
    rows = page[re.search(rf"^\| {heading} \|.*\n", page, re.M).end() :].split("\n\n")[0].split("\n")[1:]
    return [it.split("|")[1].strip() for it in rows]


def words_of(page, heading):
    return {re.match(r"`(\w+)", it)[1] for it in table_of(page, heading)}


class Starts(Both, unittest.TestCase):
    def test_a_closed_session(self):
        it = self.session(MARKET)
        it.close()
        it.close()
        for call in (lambda: it.ask("book"), lambda: it.set("acme", 1), lambda: it.send(""), lambda: it.df("euro", "2029-01-17")):
            self.assertRaises(errors.Ended, call)

    def test_a_refused_start(self):
        for words, named, error, status, said in [
            (["no_market"], {}, errors.FileMissing, 8, "no file market"),
            (["quotes.csv"], {}, errors.MarketFault, 3, "market top 0 toml"),
            ([MARKET, "no_script"], {}, errors.FileMissing, 8, "no file script"),
            ([MARKET], {"order": "sideways"}, errors.UsageFault, 2, "usage"),
        ]:
            with self.subTest(said), self.assertRaises(error) as got:
                self.session(*words, **named)
            self.assertEqual((got.exception.status, got.exception.said), (status, said))

    def test_a_fault_has_its_place(self):
        with tempfile.TemporaryDirectory() as room:
            text = Path(MARKET).read_text()
            Path(room, "market.toml").write_text(text.replace("settlement = 2", 'settlement = "2"', 1))
            with self.assertRaises(errors.MarketFault) as got:
                self.session(f"{room}/market.toml")
            told = got.exception
            line = 1 + text[: text.index("settlement = 2")].count("\n")
            self.assertEqual((told.section, told.entry, told.kind), ("objects", 1, "key"))
            self.assertEqual((told.file, told.line, told.key), (f"{room}/market.toml", line, "settlement"))
            Path(room, "script.txt").write_text("ask book\nask\n")
            with self.assertRaises(errors.ScriptFault) as got:
                self.session(MARKET, f"{room}/script.txt")
            self.assertEqual((got.exception.line, got.exception.kind), (2, "count"))
            self.assertEqual(got.exception.file, f"{room}/script.txt")

    def test_paths_that_a_market_names(self):
        for named in ('"quotes" = "{}"', "quotes = '{}'", 'quotes = "{}"  # a table', '"quo\\u0074es" = "{}"'):
            with self.subTest(named), tempfile.TemporaryDirectory() as room:
                Path(room, "a table").write_text("name,value\nq,1\n")
                path = f"{room}/a table" if "'" in named else f"{room}/a\\u0020table"
                Path(room, "market.toml").write_text(f'version = 1\ntoday = "2024-01-02"\n{named.format(path)}\n')
                with self.session(f"{room}/market.toml") as it:
                    it.stock("t", "q")
                    self.assertEqual(it.ask("t").value, 1)


class Journals(Both, unittest.TestCase):
    def test_a_journal_is_begun_once(self):
        with tempfile.TemporaryDirectory() as room:
            self.session(MARKET, journal=f"{room}/day").close()
            self.assertRaises(errors.JournalError, self.session, MARKET, journal=f"{room}/day")
            Path(room, "other").write_text("ask book\n")
            self.assertRaises(errors.JournalError, Session.recover, MARKET, f"{room}/other", via=self.via)

    def test_a_recovered_session_goes_on(self):
        with tempfile.TemporaryDirectory() as room:
            with self.session(MARKET, order="last", journal=f"{room}/day", sync=True) as it:
                it.set("s5", 0.0253)
                self.assertRaises(Fault, it.send, "sell")
                self.assertRaises(Rejected, it.ask, "nobody")
                it.watch("w", ["ask book"], on=["book"])
                it.ask("book")
            with open(f"{room}/day", "ab") as file:
                file.write(b"set s5 0.0")
            with Session.recover(MARKET, f"{room}/day", via=self.via, transcript=f"{room}/more") as it:
                self.assertEqual(it.set("s5", "0.0254"), [Price("book", Decimal("5499289.127303"), "fresh", 6)])
            written = played(MARKET, f"{room}/day", "--order=last")
            self.assertEqual(written.splitlines()[-1], b"book 5499289.127303 fresh 6")
            self.assertEqual(Path(room, "more").read_bytes(), written)

    def test_a_transcript_goes_on(self):
        with tempfile.TemporaryDirectory() as room:
            day, written = Path(room, "day"), Path(room, "written")
            with self.session(MARKET, journal=day, transcript=written) as it:
                for number in range(20):
                    it.set("acme", number)
                    it.ask("share")
            whole = written.read_bytes()
            for had in (b"", whole[:1], whole[:-1], whole, whole[: len(whole) // 2]):
                written.write_bytes(had)
                Session.recover(MARKET, day, via=self.via, transcript=written).close()
                self.assertEqual(written.read_bytes(), whole)
            written.unlink()
            with Session.recover(MARKET, day, via=self.via, transcript=written) as it:
                self.assertEqual((it.count, it.opening), (40, []))
                it.ask("book")
            self.assertEqual(written.read_bytes(), played(MARKET, day))
            for had in (b"x" + whole[1:], whole + b"book 5495252.776163 fresh 7\nmore\n"):
                written.write_bytes(had)
                self.assertRaises(errors.JournalError, Session.recover, MARKET, day, via=self.via, transcript=written)
                self.assertEqual(written.read_bytes(), had)

    def test_one_session_has_a_journal(self):
        with tempfile.TemporaryDirectory() as room:
            with self.session(MARKET, journal=f"{room}/day"):
                self.assertRaises(errors.JournalError, Session.recover, MARKET, f"{room}/day", via=self.via)
            Session.recover(MARKET, f"{room}/day", via=self.via).close()
            self.assertRaises(errors.JournalError, Session.recover, MARKET, f"{room}/none", via=self.via)
            self.assertRaises(errors.JournalError, self.session, MARKET, journal=f"{room}/no/folder")
            for front in (b"", b"# doqs", b"# doqsheley journal 1 order=first script=9\nset "):
                Path(room, "front").write_bytes(front)
                self.assertRaises(errors.JournalError, Session.recover, MARKET, f"{room}/front", via=self.via)

    def test_an_action_that_is_open_in_a_journal(self):
        with tempfile.TemporaryDirectory() as room:
            day = Path(room, "day")
            with suppress(Fault), self.session(MARKET, journal=day) as it:
                send(it, "set acme 42; action a; ask share")
                copy = day.read_bytes()
            day.write_bytes(copy)
            with Session.recover(MARKET, day, via=self.via) as it:
                self.assertEqual(it.count, 3)
                with self.assertRaises(Fault) as got:
                    it.send("action b")
                self.assertEqual((got.exception.line, got.exception.kind), (4, "nested"))
                send(it, "end; watch w a; register w acme")
                self.assertEqual(it.set("acme", 43), [Price("share", Decimal(43), "fresh", 1)])
            self.assertEqual(played(MARKET, day), b"share 43.000000 fresh 1\n")

    def test_a_journal_that_cannot_be_written(self):
        limits = resource.getrlimit(resource.RLIMIT_FSIZE)
        with tempfile.TemporaryDirectory() as room:
            day, told = Path(room, "day"), []
            it = self.session(MARKET, journal=day)
            resource.setrlimit(resource.RLIMIT_FSIZE, (200, limits[1]))
            try:
                with self.assertRaises(errors.JournalError):
                    for number in range(100):
                        it.set("acme", number)
                        told.append(f"set acme {number}")
            finally:
                resource.setrlimit(resource.RLIMIT_FSIZE, limits)
            self.assertRaises(errors.Ended, it.ask, "share")
            self.assertIsNotNone(it.ended)
            with suppress(doqsheley.DeskError):
                it.close()
            self.assertEqual(day.read_text().split("\n")[1:-1], told)
            with Session.recover(MARKET, day, via=self.via) as it:
                self.assertEqual(it.ask("share").value, len(told) - 1)

    def test_a_client_that_is_killed(self):
        pick = random.Random(int(os.environ.get("DESK_SEED", "83")))
        code = f"import test_session; test_session.busy({self.via!r})"
        for number in range(int(os.environ.get("DESK_KILLS", "6"))):
            with self.subTest(number), tempfile.TemporaryDirectory() as room:
                words = [sys.executable, "-c", code, f"{room}/day", str(number)]
                path = os.pathsep.join([str(HERE), *sys.path])
                client = subprocess.Popen(words, stdout=subprocess.PIPE, env={**os.environ, "PYTHONPATH": path})
                client.stdout.readline()
                with suppress(subprocess.TimeoutExpired):
                    client.wait(pick.uniform(0.01, 0.5))
                client.send_signal(signal.SIGKILL)
                told = client.stdout.read().split(b"\n")[:-1]
                client.wait()
                client.stdout.close()
                with Session.recover(MARKET, f"{room}/day", via=self.via) as it:
                    lines = Path(room, "day").read_bytes()
                    self.assertGreaterEqual(lines.count(b"\n"), len(told) + 1)
                    self.assertEqual(lines.split(b"\n")[1 : len(told) + 1], told)
                    if lines.rsplit(b"action", 1)[-1].count(b"\nend\n") == 0 and b"\naction" in lines:
                        it.send("end")
                    for name in ("book", "share", "k"):
                        with suppress(Unpriced, Rejected):
                            it.ask(name)
                    script, last = it.script(), it.send("ask book")[0]
                Path(room, "played").write_bytes(script)
                written = played(MARKET, f"{room}/played").splitlines()
                if isinstance(last, Price):
                    shown = [line for line in written if line.startswith(b"book ")][-1].split()
                    self.assertEqual(str(last.value).encode(), shown[1])


def busy(via):
    """A client that is killed: it writes each line that was accepted."""
    os.chdir(TOP / "examples" / "desk")
    path, seed = sys.argv[1:]
    pick = random.Random(int(seed))
    with Session(MARKET, via=via, journal=path) as it:
        print("begun", flush=True)
        while True:
            line = pick.choice([
                f"set s5 0.02{pick.randint(10, 99)}", f"set acme {pick.randint(1, 99)}", "ask book", "ask share", "df euro 2029-01-17",
                "composite k", f"member k share {pick.randint(-3, 3)}", "ask k", "drop k", "freeze share", "thaw share", "defer", "resume",
                f"action a{pick.randint(0, 99)}", "end", "sell book", "unset acme",
            ])  # fmt: skip
            with suppress(Fault, Rejected):
                try:
                    it.send(line)
                except Rejected:
                    pass
                sys.stdout.write(line + "\n")
                sys.stdout.flush()


class Logs(Both, unittest.TestCase):
    def test_ten_thousand_random_commands(self):
        number = int(os.environ.get("DESK_SEED", "83"))
        pick = random.Random(number)
        quotes, shares, books = [f"q{k}" for k in range(5)], [f"s{k}" for k in range(5)], ["k0", "k1", "book"]
        rates, made = ["s5", "d6m", "acme"], ["watcher0", "watcher1", "watcher2"]
        priced = shares + books + ["state", "floater", "payer", "spring", "share", "offer", "euro", "rough", "summer"]
        names = quotes + shares + books + rates + made + priced + ["rates", "h0", "euribor", "nobody", "today"]

        def value(quote):
            if quote in rates:
                return pick.choice(["0.02", "0.031", "-0.001"])
            return f"{pick.randint(-9, 9)}.{pick.randint(0, 9)}"

        def line():
            q, s, k, w = pick.choice(quotes), pick.choice(shares), pick.choice(books), pick.choice(made)
            p, r, n = pick.choice(priced), pick.choice(rates), pick.choice(names)
            day = f"2024-{pick.randint(1, 12):02d}-{pick.randint(1, 31):02d}"
            return pick.choice([
                f"ask {p}", f"ask {p}", f"ask {n}", f"recalc {p}", f"df euro {day}",
                f"set {q} {value(q)}", f"set {r} {value(r)}", f"set {r} {value(r)}", f"unset {q}",
                f"quote {q} {value(q)}", f"sum {q} {r} {n}", f"difference {q} {n} {r}", f"stock {s} {n}", f"drop {n}",
                f"composite {k}", f"member {k} {pick.choice(priced)} {pick.randint(-3, 3)}",
                "handle h0 quote", f"link h0 {q}", "unlink h0", f"link rates {pick.choice(['euro', 'rough'])}",
                f"engine state {pick.choice(['none', 'discounting'])}", f"today 2024-01-{pick.randint(15, 31)}",
                f"fixing euribor {day} 0.03{pick.randint(0, 9)}", "defer", "resume", "resume",
                f"freeze {p}", f"thaw {p}", f"thaw {p}", f"forward {p} {pick.choice(['on', 'off', 'on', 'ON'])}",
                f"watch {w} a{pick.randint(0, 3)}", f"register {w} {n}", f"unregister {w} {n}",
                f"action a{pick.randint(0, 20)}", "end", "end", "end", "end",
                "# nothing", "", f"\task\t{p}  # spaced", "sell", "today x",
            ])  # fmt: skip

        def said(it, line):
            """What a line gives, half of the time by the method of its command."""
            words = line.split()
            if pick.random() < 0.5 and words[:1] in (["ask"], ["set"], ["df"]) and len(words) == (2 if words[0] == "ask" else 3) and not it._action:
                with suppress(TypeError):
                    made = getattr(it, words[0])(*words[1:])
                    return made if isinstance(made, list) else [made]
                return []
            return it.send(line)

        with tempfile.TemporaryDirectory() as room:
            told = {}
            with suppress(Fault), self.session(MARKET, journal=f"{room}/day", transcript=f"{room}/written") as it:
                for _ in range(10000):
                    try:
                        events = said(it, line())
                    except doqsheley.DeskError as error:
                        events = [error]
                    for kind in {type(event) for event in events} or {None}:
                        told[kind] = told.get(kind, 0) + 1
            written = Path(room, "written").read_bytes()
            self.assertEqual(written, played(MARKET, f"{room}/day"), f"seed {number}")
        self.assertLessEqual({Price, doqsheley.Curve, doqsheley.Factor, Fault, None}, set(told), f"what the commands wrote: {told}")
        self.assertGreater(written.count(b"\n"), 2000)


class PipedAnswers(Answers):
    via = "pipe"


class PipedRefusals(Refusals):
    via = "pipe"
    test_every_word_is_tried = test_every_word_of_the_pages_has_a_class = test_every_command_has_a_method = None


class PipedStarts(Starts):
    via = "pipe"


class PipedJournals(Journals):
    via = "pipe"


class PipedLogs(Logs):
    via = "pipe"


@unittest.skipUnless(HAS_LIBRARY, "there is no extension")
class Tables(unittest.TestCase):
    def test_objects_and_quotes(self):
        with Session(MARKET) as it:
            objects, quotes = it.objects(), it.quotes()
            self.assertEqual(objects[0], doqsheley.Object(0, "today", "today"))
            self.assertEqual(objects[17], doqsheley.Object(17, "euro", "curve"))
            self.assertEqual(len(objects), 31)
            self.assertEqual(quotes[0], doqsheley.Quote("d1w", Decimal("0.0387")))
            it.quote("q")
            it.drop("book")
            self.assertEqual(it.quotes()[-1], doqsheley.Quote("q", None))
            self.assertNotIn("book", [row.name for row in it.objects()])
            self.assertIn("<td>d1w</td>", quotes._repr_html_())
            self.assertEqual(it.nodes("euro"), [])
            self.assertEqual(tuple(it.curve("euro").nodes), tuple(it.nodes("euro")))

    def test_frames(self):
        try:
            import pandas  # noqa: F401
        except ImportError:
            self.skipTest("there is no pandas")
        with Session(MARKET) as it:
            self.assertEqual(list(it.quotes().to_pandas().columns), ["name", "value"])
            self.assertEqual(len(it.curve("euro").to_pandas()), 15)

    def test_another_thread(self):
        with Session(MARKET) as it:
            raised = []

            def use():
                try:
                    it.ask("book")
                except RuntimeError as error:
                    raised.append(error)

            other = threading.Thread(target=use)
            other.start()
            other.join()
            self.assertEqual(len(raised), 1)

    def test_a_session_for_each_thread(self):
        shown = []

        def use(rate):
            with Session(MARKET) as it:
                for _ in range(50):
                    it.set("s5", rate)
                    value = it.ask("book").value
                    it.set("s5", "0.02")
                    it.ask("book")
                shown.append((rate, value))

        threads = [threading.Thread(target=use, args=(rate,)) for rate in ("0.0253", "0.0254")]
        for it in threads:
            it.start()
        for it in threads:
            it.join()
        self.assertEqual(sorted(shown), [("0.0253", Decimal("5497271.244744")), ("0.0254", Decimal("5499289.127303"))])


@unittest.skipUnless(HAS_LIBRARY, "there is no extension")
class Programs(unittest.TestCase):
    def test_each_command_of_doqs(self):
        with Session(MARKET) as it:
            it.set("s5", "0.0253")
            it.ask("book")
            it.set("s5", "0.0254")
            it.ask("book")
            self.assertTrue(it.why("book").startswith("book 5499289.127303 fresh"))
            explained = it.explain({"five": ["set s5 0.0253"], "share": ["set acme 43"]}, ask=["book"])
            self.assertEqual(explained.splitlines()[:2], ["step base", "book 5495252.776163 fresh 7"])
            self.assertEqual(it.explain("action five\nset s5 0.0253\nend\naction share\nset acme 43\nend\nask book"), explained)
            self.assertEqual(it.risk("share"), doqsheley.programs.run(["risk", MARKET, "0.0001", "share"]))
            (point,), (whole,) = ([Decimal(row[3]) for row in it.risk("share", **size).rows if row[1] == "delta"] for size in ({}, {"size": 1}))
            self.assertEqual(whole, point * 10000)
            self.assertEqual(it.risk("book"), it.risk("book", size=0.0001))
            self.assertIn("book 5497271.244744", it.grid({"five": ["set s5 0.0253"]}, ask=["book"]))
            self.assertIn("digraph", it.graph())
            self.assertIn("<svg", it.picture("euro"))
            self.assertIn("yield", it.measure("state", "2024-01-17", "100"))
            self.assertRaises(errors.ProgramFailed, it.grid, "sell book")
            self.assertIn("<pre>", it.why("book")._repr_html_())

    def test_texts(self):
        texts = [Path(it).read_bytes() for it in ("market.toml", "quotes.csv", "fixings.csv")]
        with Session.from_texts(*texts) as it:
            self.assertTrue(it.why("book").startswith("book 5495252.776163 fresh"))


class Ends(unittest.TestCase):
    def test_a_killed_program(self):
        with self.assertRaises(errors.Ended) as got, Session(MARKET, via="pipe") as it:
            it.ask("book")
            it._back.process.send_signal(signal.SIGKILL)
            it._back.process.wait()
            it.ask("book")
        self.assertEqual(got.exception.status, -signal.SIGKILL)
        with self.assertRaises(errors.Ended) as got, Session(MARKET, via="pipe") as it:
            it._back.process.send_signal(signal.SIGKILL)
            it._back.process.wait()
        self.assertEqual(got.exception.status, -signal.SIGKILL)

    def test_an_interrupted_call(self):
        class Interrupting:
            def __iter__(self):
                raise KeyboardInterrupt

            def __getattr__(self, name):
                return getattr(out, name)

        it = Session(MARKET, via="pipe")
        out, it._back.process.stdout = it._back.process.stdout, Interrupting()
        self.assertRaises(KeyboardInterrupt, it.ask, "book")
        it._back.process.stdout = out
        with self.assertRaises(errors.Ended) as got:
            it.ask("book")
        it.close()
        self.assertEqual(got.exception.status, -signal.SIGKILL)


@unittest.skipUnless(HAS_LIBRARY, "there is no extension")
class Docs(unittest.TestCase):
    def test_examples(self):
        for module in (doqsheley, events, values):
            self.assertEqual(doctest.testmod(module).failed, 0)
        done = doctest.testfile(str(HERE.parent / "README.md"), module_relative=False)
        self.assertEqual(done.failed, 0)
        self.assertGreater(done.attempted, 10)

    def test_version(self):
        from doqsheley import _desk

        heading = re.search(r"^## ([\d.]+),", (TOP / "CHANGELOG.md").read_text(), re.M)[1]
        self.assertEqual(doqsheley.__version__, heading)
        self.assertIn(f'\nversion = "{heading}"\n', (TOP / "python/pyproject.toml").read_text())
        major, minor = map(int, heading.split("."))
        self.assertEqual(_desk.version(), 1000 * major + minor)
        self.assertRegex(doqsheley.build(), "^(logic [0-9a-f]{16}|unverified build)$")


if __name__ == "__main__":
    unittest.main()
