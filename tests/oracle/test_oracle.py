"""The oracle held against rows that were worked out by hand."""

import json
import os
import sys
import tomllib
import unittest
from fractions import Fraction

# The oracle's modules stand here, and those of cases one folder above.
if "cases" not in sys.modules:
    sys.path[:0] = [os.path.dirname(__file__), os.path.dirname(os.path.dirname(__file__))]

import maplabel
import ml_anchor
import ml_answer
import ml_json
import ml_pass
import ml_ratio
import ml_style
import ml_text
import ml_view
import toml_text
from cases.case import Case
from ml_cone import Label

USUAL = "-10,-5,10,5"
TWO = f"A 0 0 0 1000 {USUAL}\nB 400 0 0 1000 {USUAL}\n"
STYLE = """version = 2
name = "name"
rank = "pop"
[fonts.sans]
units = 1000
default = 500
advances = { "i" = 250, "\\u0301" = 0 }
[[class]]
geometry = "point"
key = "place"
value = "city"
font = "sans"
size = 20
priority = 1
min = "0"
max = "1000"
[[class]]
geometry = "line"
font = "sans"
size = 20
priority = 3
ref = 1000
min = "0"
max = "2000"
[[class]]
geometry = "area"
font = "sans"
size = 20
priority = 4
min = "0"
max = "100000"
"""
LINE = '{"type":"LineString","coordinates":[[0,0],[0.02,0.01],[0.04,0]]}'


def run(*words, **files):
    """The exit code and the output of a command over files."""
    data = {name: text.encode() for name, text in files.items()}
    outcome = maplabel.run(Case(words[0], list(words), data))
    return outcome.status, outcome.out.decode()


def slots(*lines):
    return run("slots", "table", table="".join(line + "\n" for line in lines))[1].splitlines()


def pipe(data, features, style=STYLE):
    """The replies to the requests of a stream, and the lines of changes."""
    case = Case(
        "pipe",
        ["pipe", "style", "map"],
        {"style": style.encode(), "map": features.encode()},
        data.encode(),
    )
    outcome = maplabel.run(case)
    return outcome.out.decode(), outcome.err.decode()


def point(x, name="ab", rank=1, ident=None):
    own = "" if ident is None else f'"id":"{ident}",'
    return (
        f'{{"type":"Feature",{own}"geometry":{{"type":"Point","coordinates":[{x}e-7,0]}},'
        f'"properties":{{"name":"{name}","place":"city","pop":{rank}}}}}'
    )


def collection(*features):
    return '{"type":"FeatureCollection","features":[' + ",".join(features) + "]}"


TOWNS = collection(
    point(0, rank=3, ident="A"), point(400, rank=2, ident="B"), point(800, ident="C")
)


class Choice(unittest.TestCase):
    """The longest choice, verdicts, gaps and timelines."""

    def test_two_labels(self):
        self.assertEqual(slots(*TWO.splitlines()), ["A 1000/1 -", "B 20/1 A"])

    def test_conflict_below_the_minimum(self):
        self.assertEqual(
            slots(f"A 0 0 50 1000 {USUAL}", f"B 400 0 0 1000 {USUAL}"), ["A 1000/1 -", "B 50/1 A"]
        )

    def test_interval_with_an_upper_end(self):
        for begin, end in [("0", "20/7 A"), ("10", "10/1 A"), ("25", "1000/1 -")]:
            found = slots("A 0 0 0 1000 10,-5,30,5", f"B 100 0 {begin} 1000 -5,-5,5,5")
            self.assertEqual(found[1], f"B {end}")

    def test_a_label_that_ended_blocks_no_more(self):
        three = [f"{name} {x} 0 0 1000 {USUAL}" for name, x in [("A", 0), ("B", 400), ("C", 800)]]
        self.assertEqual(slots(*three), ["A 1000/1 -", "B 20/1 A", "C 40/1 A"])
        self.assertEqual(slots(*three[1:]), ["B 1000/1 -", "C 20/1 B"])

    def test_a_tie_names_the_first(self):
        three = [f"{name} {x} 0 0 1000 {USUAL}" for name, x in [("A", -400), ("B", 400), ("C", 0)]]
        self.assertEqual(slots(*three), ["A 1000/1 -", "B 40/1 A", "C 20/1 A"])

    def test_one_anchor(self):
        self.assertEqual(slots(f"A 0 0 0 1000 {USUAL}", f"B 0 0 0 1000 {USUAL}")[1], "B 0/1 A")
        self.assertEqual(
            slots("A 0 0 0 1000 -10,-5,0,5", "B 0 0 0 1000 0,-5,10,5")[1], "B 1000/1 -"
        )

    def test_far_apart(self):
        far = [
            f"{name} {x} 0 0 268435456 {USUAL}"
            for name, x in [("A", -1800000000), ("B", 1800000000)]
        ]
        self.assertEqual(slots(*far), ["A 268435456/1 -", "B 180000000/1 A"])

    def test_verdicts(self):
        for row, due in [
            ("20/1 A", (0, "Best\n")),
            ("30/1 A", (1, "Clash B A 20/1\n")),
            ("10/1 A", (1, "Uncovered B\n")),
            ("20/1 -", (1, "BadBlocker B\n")),
            ("1001/1 A", (1, "BadEnd B\n")),
        ]:
            self.assertEqual(
                run("check", "table", "slots", table=TWO, slots=f"A 1000/1 -\nB {row}\n"), due
            )
        due = (4, "slots refused: 1 BadLine 2\n")
        self.assertEqual(run("check", "table", "slots", table=TWO, slots="A 1000/1 -\n"), due)

    def test_gaps(self):
        self.assertEqual(run("gaps", "table", table=TWO)[1], "A 0/1 1000/1\nB 0/1 20/1\n")
        for upper, due in [("1000", "20/1 1000/1"), ("160/7", "0/1 20/7")]:
            table = f"A 0 0 0 1000 10,-5,30,5\nB 100 0 0 {upper} -5,-5,5,5\n"
            self.assertEqual(run("gaps", "table", table=table)[1].splitlines()[1], f"B {due}")

    def test_timeline(self):
        due = "A (0/1,1000/1)\nB (20/3,20/1)\nC (40/3,40/1)\npeak 3 after 40/3\n"
        self.assertEqual(
            run("zoom", "style", "map", "0", "0", "100", "100", style=STYLE, map=TOWNS), (0, due)
        )
        late = STYLE.replace('min = "0"', 'min = "10"', 1)
        due = "A [10/1,1000/1)\npeak 1 at 10/1\n"
        self.assertEqual(
            run("zoom", "style", "map", "0", "0", "2", "2", style=late, map=TOWNS), (0, due)
        )
        found = run("zoom", "style", "map", "0", "0", "2", "2", style=STYLE, map=collection())
        self.assertEqual(found, (0, "peak 0 after 0/1\n"))

    def test_margins(self):
        wide = STYLE.replace('max = "1000"', 'max = "1000"\nmargin = 5', 1)
        due = ["A 1000/1 -", "B 40/3 0", "C 80/3 0"]
        replies = pipe("GET /state HTTP/1.1\r\nHost: a\r\n\r\n", TOWNS, wide)[0]
        words = [line.split(" ") for line in replies.split("\r\n\r\n")[1].splitlines()[1:]]
        self.assertEqual([" ".join([line[0], *line[6:8]]) for line in words], due)


class Texts(unittest.TestCase):
    """Numbers, JSON, tables, maps and styles as they are read."""

    def test_fractions(self):
        self.assertEqual(ml_ratio.read_fraction("38/4"), Fraction(19, 2))
        for text in ("2/131072", "4294967298/2", "1/0", "12345678901", "+1", "1.5", ""):
            self.assertIsNone(ml_ratio.read_fraction(text))

    def test_tables(self):
        for table, due in [
            ("A 0 0 0 1000 1,1,2,2\nB 400 0 0\n", "1 BadLine 2"),
            ("A 0 0 0 1 1,1,2,2\n\nA 0 0 0 1 1,1,2,2\n", "2 SameId 3"),
            ("A 0 0 0 1 1,1,2,2\r", "1 BadLine 1"),
            ("A  0 0 0 1 1,1,2,2\n", "1 BadLine 1"),
        ]:
            self.assertEqual(run("slots", "table", table=table), (4, f"table refused: {due}\n"))

    def test_coordinates(self):
        rows = {
            "8.54169415": 85416942,
            "8.541694150000001": 85416942,
            "8.541694149": 85416941,
            "-0.00000005": -1,
            "1e1": 100000000,
            "0e99999999999": 0,
            "200.00000004": 2000000000,
            "200.0000001": None,
        }
        self.assertEqual({text: ml_json.e7(text) for text in rows}, rows)
        self.assertEqual(
            [ml_json.whole_part(text) for text in ("12.9", "-3", "1e400")], [12, 0, 2**53]
        )
        written = [ml_json.write_e7(value) for value in (85416942, -1, 0)]
        self.assertEqual(written, ["8.5416942", "-0.0000001", "0.0000000"])

    def test_json_places(self):
        rows = {
            b'{"a":1,}': "1 NotJson 7",
            b"01": "1 NotJson 1",
            b"[" * 65: "2 Deep 64",
            b'{"type":"Feature': "1 NotJson 16",
            b"\xef": "1 NotJson 1",
            b'"\xed\xa0\x80"': "1 NotJson 2",
            b"1.": "1 NotJson 2",
            b"": "1 NotJson 0",
        }
        for data, due in rows.items():
            with self.assertRaises(ml_pass.Refused) as refused:
                ml_json.read(data)
            self.assertEqual(refused.exception.words(), due)
        self.assertEqual(ml_json.read(b'{"a":1,"a":2}'), {"a": "2"})
        self.assertEqual(ml_json.read(b'"\\ud800"'), "\ufffd")

    def test_map_faults(self):
        for geometry, due in [
            ('{"type":"LineString","coordinates":[[201,0],[1]]}', "6 OutOfRange 0"),
            ('{"type":"Polygon","coordinates":[[[0,0],[1,0]],5]}', "7 ShortRing 0"),
            ('{"type":"LineString","coordinates":[[]]}', "5 BadGeometry 0"),
        ]:
            data = collection(f'{{"type":"Feature","geometry":{geometry}}}')
            words = ("view", "style", "map", "0", "0", "2", "2", "1")
            self.assertEqual(run(*words, style=STYLE, map=data), (4, f"map refused: {due}\n"))

    def test_ids(self):
        three = collection(
            '{"type":"Feature","id":7}', '{"type":"Feature","id":"7"}', '{"type":"Feature"}'
        )
        body = pipe("GET /map HTTP/1.1\r\nHost: a\r\n\r\n", three)[0].split("\r\n\r\n")[1]
        self.assertEqual(
            [feature["id"] for feature in json.loads(body)["features"]], ["7", "#1", "#2"]
        )

    def test_style_faults(self):
        for old, new, due in [
            ("size = 20", "size = 20.0", "4 BadClass 0 size"),
            ('"sans"\nsize', '"serif"\nsize', "5 UnknownFont 0"),
            ('min = "0"', 'min = "1000"', "6 EmptyRange 0"),
            ("version = 2", "version = 3", "2 Version"),
            ('max = "1000"', 'max = "1000"\nmargin = 65', "4 BadClass 0 margin"),
        ]:
            words = ("view", "style", "map", "0", "0", "2", "2", "1")
            self.assertEqual(
                run(*words, style=STYLE.replace(old, new, 1), map=TOWNS),
                (3, f"style refused: {due}\n"),
            )

    def test_toml_against_pythons_reader(self):
        """What Python reads, which knows TOML 1.0 alone, is read alike."""
        for text in [
            "",
            "a = 1 # c\r\n",
            "a.b = 1\na.c = 'x'",
            "a = [1, 'x',\n]",
            "[[a]]\nx = 1\n[[a]]\n[a.b]\ny = true",
            'a = """\nx\\\n  y"""',
            "a = '''\nx'''",
            "a = 0xff",
            "a = 1_000",
            "[a.b]\n[a]\nc = 1",
            'a = "\\u00e9"',
        ]:
            self.assertEqual(
                toml_text.read(text.encode()), tomllib.loads(text.replace("\r\n", "\n")), text
            )
        for text in [
            "a",
            "a = 01",
            "a = 1\na = 2",
            "[a]\n[a]",
            "a.b = 1\n[a]",
            "a = {b = 1}\na.c = 2",
            "a = 'x",
            "a = 1 b = 2",
        ]:
            with self.assertRaises(toml_text.NotToml):
                toml_text.read(text.encode())
        later = {'a = "\\x41\\e"': {"a": "A\x1b"}, "a = {b = 1,\n c = 2,}": {"a": {"b": 1, "c": 2}}}
        self.assertEqual({text: toml_text.read(text.encode()) for text in later}, later)


class Labels(unittest.TestCase):
    """Labels of features."""

    def view(self, feature, *words):
        return run("view", "style", "map", *words, style=STYLE, map=collection(feature))[1]

    def test_widths_and_clusters(self):
        font = ml_style.read_style(STYLE.encode()).fonts["sans"]
        rows = {"Z\u00fcrich": 55, "ii": 10, "e\u0301": 10, "\u0301": 1}
        self.assertEqual({text: ml_text.width(font, 20, text) for text in rows}, rows)
        pieces = ["e\u0301", "a", "\U0001f1e8\U0001f1ed", "\u1100\u1161"]
        self.assertEqual(ml_text.clusters("".join(pieces)), pieces)

    def test_areas(self):
        corners = [(0, 0), (6, 0), (6, 4), (4, 4), (4, 1), (1, 1), (1, 4), (0, 4), (0, 0)]
        ring = tuple((x * 10**7, y * 10**7) for x, y in corners)
        self.assertEqual(ml_anchor.area_anchor("Polygon", (ring,)), (50000000, 20000000))

    def test_rivers(self):
        river = f'{{"type":"Feature","geometry":{LINE},"properties":{{"name":"Sihl"}}}}'
        due = (
            '"at":[200000,100000],"boxes":[[-17,-16,-7,4],[-7,-13,-2,7],[-2,-12,8,8],[8,-17,18,3]]'
        )
        words = ("200000", "100000", "1024", "768", "100")
        self.assertIn(due, self.view(river, *words))
        due = '"boxes":[[-10,-13,0,7],[0,-13,10,7]]'
        self.assertIn(due, self.view(river.replace("Sihl", "e\u0301a"), *words))
        short = river.replace("[0.02,0.01],[0.04,0]", "[0.0005,0]")
        self.assertIn(
            '"at":[2500,0],"boxes":[[-17,-10,18,10]]',
            self.view(short, "2500", "0", "1024", "768", "100"),
        )

    def test_pictures(self):
        self.assertEqual(ml_answer.write_px(-50), "-0.50")
        label = Label(
            (1, 0, b"A"), "A", (85416942, 473768861), ((-27, -10, 28, 10),), ("a<b",), (0, 1000)
        )
        view = ml_view.View(85416942, 473768861, 1024, 768, Fraction(100))
        due = '<text x="485.00" y="394.00" font-size="20" textLength="55">a&lt;b</text>'
        self.assertEqual(ml_answer.svg_text(view, [label]).splitlines()[1], due)


class Requests(unittest.TestCase):
    """Connections, edits and other commands."""

    def bodies(self, *requests):
        """The bodies of the replies to requests with their bodies, over a map without features."""
        text = "".join(
            f"{line} HTTP/1.1\r\nHost: a\r\nContent-Length: {len(body)}\r\n\r\n{body}"
            for line, body in requests
        )
        return [
            part.split("\r\n\r\n")[1] for part in pipe(text, collection())[0].split("HTTP/1.1 ")[1:]
        ]

    def test_edits(self):
        body = (
            '{"type":"Feature","id":"A","geometry":{"type":"Point","coordinates":[0,0]},'
            '"properties":{"name":"ab","place":"city"}}'
        )
        self.assertEqual(len(body), 117)
        due = [
            '{"changes":[{"after":["0/1","1000/1"],"before":null,"id":"A"}],"rev":1}',
            '{"error":"Duplicate","id":"A"}',
            '{"error":"RevMoved","rev":1}',
            '{"at":0,"error":"NotJson"}',
            '{"error":"Unknown","id":"Z"}',
            '{"labels":[{"at":[0,0],"boxes":[[-10,-10,10,10]],"id":"A","text":"ab",'
            '"until":"1000/1"}],"scale":"1/1"}',
            '{"changes":[{"after":null,"before":["0/1","1000/1"],"id":"A"}],"rev":2}',
            '{"labels":[],"scale":"1/1"}',
        ]
        view = "GET /view?cx=0&cy=0&w=1024&h=768&s=1"
        found = self.bodies(
            ("POST /feature", body),
            ("POST /feature", body),
            ("POST /feature?rev=0", "x"),
            ("POST /feature?rev=1", "x"),
            ("PUT /feature", body.replace('"A"', '"Z"')),
            (view, ""),
            ("DELETE /feature?id=A", ""),
            (view, ""),
        )
        self.assertEqual(found, due)

    def test_changes_of_others(self):
        lines = pipe("DELETE /feature?id=A HTTP/1.1\r\nHost: a\r\n\r\n", TOWNS)[1]
        self.assertEqual(lines, "A 0/1..1000/1 -\nB 0/1..20/1 0/1..1000/1\nC 0/1..40/1 0/1..20/1\n")

    def test_heads(self):
        for data, due in [
            ("a" * 16384, "431 "),
            ("a" * 16383, ""),
            ("GET /rev HTTP/1.1\r\n\r\n", "400 "),
            ("\r\n\r\n", "400 "),
            ("GET /x HTTP/1.0\r\n\r\n", "404 "),
            ("GET /rev HTTP/1.1\r\nHost: a\r\nTransfer-Encoding: chunked\r\n\r\n", "501 "),
            ("GET http://a/rev HTTP/1.1\r\nHost: a\r\n\r\n", "400 "),
            ("GET /rev HTTP/1.1\nHost: a\n\n", ""),
            ("GET /rev HTTP/1.1\r\nHost: a\r\nContent-Length: 1048577\r\n\r\n", "413 "),
            ("GET /rev HTTP/1.1\r\nHost: a\r\n" + "X: y\r\n" * 64 + "\r\n", "400 "),
        ]:
            replies = pipe(data, collection())[0]
            self.assertEqual(replies.removeprefix("HTTP/1.1 ")[:4], due)
            self.assertEqual("Connection: close" in replies, due != "")

    def test_refused_requests(self):
        due = [
            '{"error":"method"}',
            '{"error":"path"}',
            '{"error":"query","name":"cy"}',
            '{"error":"query","name":"z"}',
            '{"error":"query","name":"i"}',
            '{"features":0,"labels":0,"rev":0}',
        ]
        lines = [
            "PUT /view",
            "GET /x",
            "GET /view?cx=0",
            "GET /tile?z=22&i=0&j=0",
            "GET /tile?z=21&i=1&j=0",
            "GET /rev",
        ]
        self.assertEqual(self.bodies(*((line, "") for line in lines)), due)

    def test_many_requests(self):
        out = pipe("GET /rev HTTP/1.1\r\nHost: a\r\n\r\n" * 1001, collection())[0]
        self.assertEqual((out.count("HTTP/1.1 200"), out.count("Connection: close")), (1000, 1))

    def test_states(self):
        text = (
            "state 0 3\nA 0 0 0/1 1000/1 0 1000/1 - -10,-10,10,10\n"
            "B 400 0 0/1 1000/1 0 20/1 0 -10,-10,10,10\n"
            "C 800 0 0/1 1000/1 0 40/1 0 -10,-10,10,10\n"
        )
        self.assertEqual(run("follow", "states", states=text), (0, "adopted 0 3\nheld 0 3\n"))
        self.assertEqual(
            run("follow", "states", states=text * 2), (11, "adopted 0 3\nstale 0 0\nheld 0 3\n")
        )
        wrong = text.replace("40/1", "30/1")
        self.assertEqual(
            run("follow", "states", states=wrong), (11, "refused 0 Uncovered C\nheld none\n")
        )
        self.assertEqual(
            run("follow", "states", states=text[: text.index("C")]),
            (4, "states refused: 1 BadState 4\n"),
        )

    def test_generated_maps(self):
        due = "groups 3 features 15 labels 15 edits 6 shown 9 changes 18 evaluated 15 rev 6\n"
        self.assertEqual(run("gen", "3", "7"), (0, due))
        self.assertEqual(run("gen", "6001", "1")[0], 2)


if __name__ == "__main__":
    unittest.main()
