"""Looks at the page of a hunt and at its SARIF, as test_tools does at the rest."""
import datetime
import html.parser
import json
import os
import re
import shutil
import subprocess
import sys

import looking
from looking import Case, Hunting, environment

sys.path.insert(0, looking.TOOLS)
import cbi_show.page  # noqa: E402
import cbi_show.rows  # noqa: E402
import cbi_show.source  # noqa: E402
from cbi_show import answer, bugs, files, highlight, page_bugs, sarif, style, where, wording  # noqa: E402

SCHEMA = os.path.join(looking.TOP, "checks", "tools", "sarif-2.1.0.json")
# What checks a document by a schema; the schema's own faults are told too.
VALIDATE = """\
import json, sys
import jsonschema
schema, log = (json.load(open(name)) for name in sys.argv[1:])
jsonschema.Draft7Validator.check_schema(schema)
errors = list(jsonschema.Draft7Validator(schema).iter_errors(log))
print(errors[0].message if errors else "valid")
"""


class Page(html.parser.HTMLParser):
    """Parses a page: what is open must be closed in turn, and ids, links and the names of attributes are kept, with the text below each heading."""
    EMPTY = {"meta", "br", "img", "hr", "link", "input"}

    def __init__(self, text):
        super().__init__()
        self.open, self.ids, self.links, self.tags, self.attributes, self.text, self.headings, self.folded = [], [], [], set(), set(), "", [], ""
        self.feed(text)
        self.close()

    def handle_starttag(self, tag, attrs):
        names = dict(attrs)
        self.tags.add(tag)
        self.ids += [names["id"]] if "id" in names else []
        self.links += [names[name] for name in ("href", "src") if name in names]
        self.attributes |= set(names)
        if re.fullmatch("h[1-6]", tag):
            self.headings.append([int(tag[1]), ""])
        if tag not in self.EMPTY:
            self.open.append(tag)

    def handle_endtag(self, tag):
        if not self.open or self.open.pop() != tag:
            raise AssertionError(f"</{tag}> closes what isn't open")

    def handle_data(self, data):
        if "style" in self.open:
            return
        if "details" in self.open and "summary" not in self.open:
            self.folded += data
        else:
            self.text += data
        if self.headings and any(re.fullmatch("h[1-6]", tag) for tag in self.open):
            self.headings[-1][1] += data


def sound(case, text):
    """A page that stands alone, whose links lead somewhere in it, and that a keyboard is enough for."""
    page = Page(text)
    case.assertEqual(page.open, [])
    case.assertEqual(len(page.ids), len(set(page.ids)))
    for link in page.links:
        case.assertTrue(link.startswith("#") and link[1:] in page.ids, link)
    case.assertFalse(page.tags & {"script", "link", "img", "iframe", "button", "input", "select", "textarea", "dialog", "audio", "video", "object", "embed"})
    case.assertTrue(page.attributes <= {"lang", "charset", "name", "content", "class", "href", "id", "style", "aria-label", "aria-hidden"}, page.attributes)
    case.assertNotIn("url(", text)
    levels = [level for level, _ in page.headings]
    case.assertEqual(levels[0], 1)
    case.assertEqual(levels.count(1), 1)
    case.assertTrue(all(after <= before + 1 for before, after in zip(levels, levels[1:])), levels)
    return page


def luminance(colour):
    """How light a colour is, by WCAG 2.1."""
    parts = [part / 255 for part in colour]
    linear = [part / 12.92 if part <= 0.03928 else ((part + 0.055) / 1.055) ** 2.4 for part in parts]
    return 0.2126 * linear[0] + 0.7152 * linear[1] + 0.0722 * linear[2]


def contrast(one, other):
    light, dark = sorted((luminance(one), luminance(other)), reverse=True)
    return (light + 0.05) / (dark + 0.05)


def colours(block):
    """The colours of a style's variables."""
    found = {}
    for name, value in re.findall(r"--([a-z]+): ([^;]+);", block):
        digits = value[1:] if len(value) == 7 else "".join(2 * digit for digit in value[1:])
        found[name] = tuple(map(int, value.split())) if " " in value else tuple(int(digits[at:at + 2], 16) for at in (0, 2, 4))
    return found


def mixed(above, below, part):
    return tuple(part * one + (1 - part) * other for one, other in zip(above, below))


class Style(Case):
    def test_all_text_is_seen_in_light_and_dark(self):
        """Each text has a contrast of 4.5 at least with what it stands on (WCAG 2.1, 1.4.3), also on the darkest shade of a line."""
        light, dark = re.findall(r":root \{([^}]*)\}", style.STYLE)
        for block in (light, dark):
            found = colours(block)
            for ground in ("paper", "card"):
                for text in ("ink", "quiet", "link", "word", "string", "note"):
                    self.assertGreaterEqual(contrast(found[text], found[ground]), 4.5, (text, ground))
                self.assertGreaterEqual(contrast(found["ink"], mixed(found["hot"], found[ground], 0.35)), 4.5, ground)
                self.assertGreaterEqual(contrast(found["ink"], found["mark"]), 4.5)
        self.assertIn("color-scheme: light dark", style.STYLE)
        self.assertIn(".marked, .marked::before, .marked i { color: var(--ink) !important; }", style.STYLE)

    def test_what_it_is_like_elsewhere(self):
        self.assertIsNone(re.search(r"overflow(-[xy])?:", style.STYLE), "a part of the page scrolls by itself, and no key may come to it")
        self.assertIn("overflow-wrap: anywhere", style.STYLE)
        self.assertIn("a:focus-visible, summary:focus-visible { outline: 3px solid", style.STYLE)
        self.assertEqual(style.STYLE.count("outline:"), 1)
        self.assertIn(".skip:focus { left: 1rem; top: 1rem;", style.STYLE)
        paper = style.STYLE.split("@media print")[1]
        self.assertIn("break-inside: avoid", paper)

    def test_a_text_is_coloured_line_by_line(self):
        lines = ["#include <a.h> /* one", "two */ int x = 'a' < 1; // if", 'char *s = "int /*";', "ifs = 1;"]
        self.assertEqual(highlight.highlighted(lines), ["<b>#include &lt;a.h&gt; </b><i>/* one</i>", "<i>two */</i> <b>int</b> x = <u>&#x27;a&#x27;</u> &lt; 1; <i>// if</i>",
                                                           "<b>char</b> *s = <u>&quot;int /*&quot;</u>;", "ifs = 1;"])


class Pages(Hunting):
    def page(self, *words, due=0):
        self.hunt(*words, "--html", "page.html", due=due)
        text = self.read("page.html").decode()
        return sound(self, text), text

    def test_the_answer_is_first_and_jargon_is_folded(self):
        self.more_inputs()
        page, text = self.page("--inputs", "in puts", "--expect", "due", "--rate", "1")
        self.assertEqual(page.headings[0], [1, "if (c > 'a' && c <= 'z') was false at upper.c:9 in main"])
        self.assertEqual([said for level, said in page.headings if level == 2][:3], ["Suspicious lines", "How runs ended", "The ranking of cbi rank"])
        self.assertIn([4, "c == 97 'a' after c = getchar()"], page.headings)
        for said in ("1 bug explains all 9 failing inputs (36 inputs).", "True in all 9 failing runs that came there, and in none of the 27 others that did.", "wrong output (9 runs)", "Line 1 of its output", "aBC",
                     "Line 1 that was expected", "ABC", "cbi run --expect 'due/02 abc' --input 'in puts/02 abc'", "in puts/02 abc (3 bytes), in puts/04 zza (3 bytes), in puts/08 caa (3 bytes) and 6 more", "1.000line 9 of main"):
            self.assertIn(said, page.text)
        self.assertIn("fails 25 % of the time when reached, 100 % when this is true", page.folded)
        for word in ("predicate", "Increase", "increase", "context", "elimination", "Importance"):
            self.assertNotIn(word, page.text.replace("proved to be the elimination of", ""))
            self.assertIn(word.lower(), page.folded.lower())
        places = [text.index(f'id="{part}"') for part in ("answer", "suspicious", "endings", "ranking", "source")]
        self.assertEqual(places, sorted(places))

    def test_blanks_of_outputs_stay(self):
        self.write("upper.c", looking.UPPER.replace("putchar(c);", "putchar(c);\n        putchar(' ');"))
        _, text = self.page("--inputs", "in puts", "--expect", "due", due=1)
        self.assertIn("<dt>Line 1 of its output</dt><dd><code>Q </code></dd>", text)
        self.assertIn("dd code { white-space: pre-wrap; }", style.STYLE)

    def test_a_member_is_not_broken_in_two_lines(self):
        self.assertEqual(page_bugs.unbroken("more = to->balance + a"), '<code>more = <span class="whole">to-&gt;balance</span> + a</code>')
        self.assertEqual(page_bugs.unbroken("a->" + "b" * 60), "<code>a-&gt;" + "b" * 60 + "</code>")
        self.assertIn(".whole { white-space: nowrap; }", style.STYLE)

    def test_how_runs_ended_is_drawn(self):
        self.write("in puts/13 !", "!")
        page, text = self.page("--inputs", "in puts", "--rate", "1", "--runs", "26")
        self.assertIn('<tr><td>failed: a call of abort (trap 14)</td><td>1</td><td aria-hidden="true"><span class="tall" style="width:8.3%"></span>', text)
        self.assertIn('<tr class=well><td>as it should</td><td>12</td><td aria-hidden="true"><span class="tall" style="width:100.0%"></span>', text)

    def test_what_made_it_is_said(self):
        done = subprocess.run(["cbi-hunt", "upper.c", "--inputs", "both", "--rate", "2", "--seed", "7", "--keep", "a b", "--runs", "24"], cwd=self.room,
                              env=dict(environment(), SOURCE_DATE_EPOCH="86400"), stdout=subprocess.PIPE, check=False)
        self.assertEqual(done.returncode, 0)
        page = sound(self, self.read("a b/page.html").decode())
        program = files.read_program(self.path("a b", "program")).identity
        source = subprocess.run(["sha256sum", "upper.c"], cwd=self.room, stdout=subprocess.PIPE, check=True).stdout.decode().split()[0]
        made = self.made_by(self.read("a b/page.html").decode())
        self.assertEqual(made, {"Command": "cbi-hunt upper.c --inputs both --rate 2 --seed 7 --keep &#x27;a b&#x27; --runs 24", "Version": files.VERSION, "Date": "1970-01-02", "Runs": "24", "Seed": "7",
                                "Rate": "2", "Turns": "1000000", "Policy": "all", "SHA-256 of the text": source, "SHA-256 of the program": program})
        self.assertIn("What made this page", page.text)

    def made_by(self, text):
        return dict(re.findall(r"<dt>([^<]*)</dt><dd><code>([^<]*)</code></dd>", text.split('<section id="made">')[1].split("</section>")[0]))

    def test_the_date_is_today_where_nothing_else_is_said(self):
        days = [datetime.datetime.now(datetime.timezone.utc).strftime("%Y-%m-%d")]
        given = {name: value for name, value in environment().items() if name != "SOURCE_DATE_EPOCH"}
        subprocess.run(["cbi-hunt", "upper.c", "--inputs", "both", "--html", "page.html"], cwd=self.room, env=given, stdout=subprocess.PIPE, check=True)
        days.append(datetime.datetime.now(datetime.timezone.utc).strftime("%Y-%m-%d"))
        self.assertIn(self.made_by(self.read("page.html").decode())["Date"], days)

    def test_its_words_are_those_of_the_glossary(self):
        with open(os.path.join(looking.TOP, "docs", "METHOD.md"), encoding="utf-8") as file:
            glossary = {row.split(" | ")[0][2:]: row.split(" | ")[1] for row in file if row.startswith("| ")}
        for word, meaning in cbi_show.page.WORDS:
            self.assertIn(glossary[word][len(meaning):][:1], ("", ":"), word)
            self.assertTrue(glossary[word].startswith(meaning), word)
        page, _ = self.page("--inputs", "in puts", due=1)
        for word in ("predicate", "trap", "elimination", "weak row"):
            self.assertIn(dict(cbi_show.page.WORDS)[word].replace("`", ""), page.folded)

    def test_lines_are_the_darker_the_more_they_say(self):
        self.more_inputs()
        _, text = self.page("--inputs", "in puts", "--expect", "due", "--rate", "1")
        marked = re.search(r'<p id="L9" class="marked" style="background:rgb\(var\(--hot\) / (0\.\d\d)\)">(.*?)</p>', text)
        self.assertEqual(marked[1], f"{0.12 + 0.23:.2f}")
        self.assertIn('<a href="#answer">if (c &gt; &#x27;a&#x27; &amp;&amp; c &lt;= &#x27;z&#x27;) is false</a></span>', marked[2])
        self.assertIn('<p id="L5"><code>    <b>int</b> c;</code></p>', text)

    def test_the_lines_of_the_card_begin_at_its_edge(self):
        self.assertEqual(page_bugs.shared_blank(["        a", "", "      b", "            c"]), "      ")
        self.assertEqual(page_bugs.shared_blank(["\ta", "\t\tb"]), "\t")
        self.assertEqual(page_bugs.shared_blank(["  a", "\tb"]), "")
        for line, due in (("      <b>if</b> (a)", "<b>if</b> (a)"), ("<i>      b */</i> c", "<i>b */</i> c"), ("", ""), ("        a", "  a")):
            self.assertEqual(page_bugs.without_blank(line, "      "), due)
        _, text = self.page("--inputs", "in puts", "--rate", "1", "--oracle", "false", "--runs", "12", due=1)
        self.assertNotIn('class="lines" style="counter-reset', text)
        self.more_inputs()
        _, text = self.page("--inputs", "in puts", "--expect", "due", "--rate", "1")
        self.assertIn('<p><code>    abort();</code></p>', text.split("</header>")[0])

    def test_the_command_is_marked_as_a_whole(self):
        _, text = self.page("--inputs", "in puts", "--expect", "due", "--rate", "1")
        self.assertRegex(text, r'<dl class="run">.*<dt>The run again</dt><dd><code>[^<]*</code></dd>\n</dl>'.replace(".*", "[\\s\\S]*"))
        self.assertIn(".run dd:last-child code { user-select: all;", style.STYLE)

    def test_no_row_still_makes_a_page(self):
        page, _ = self.page("--inputs", "in puts", due=1)
        self.assertEqual(page.headings[0], [1, "upper.c: no fact stands out"])
        self.assertIn("No run failed, so there is nothing to compare.", page.text)
        self.assertIn("<li>Give inputs on which it fails.</li></ul>", self.read("page.html").decode())
        self.assertIn("12 runs on 12 inputs: 0 failed, 12 succeeded", page.text)

    def test_thirty_rows_have_room_in_sixty_thousand_bytes(self):
        """Thirty rows with five neighbours each, of a source of 300 lines; the source gives way."""
        body = "".join(f"    value_{number} = other_value * {number} + read_number(); /* what line {number} does */\n" for number in range(296))
        source = ("int main(void)\n{\n" + body + "}\n").split("\n")
        rows, shown = [files.Row(rank, 6 * rank, "pairs", "some_function", 9 * rank, f"value_{rank} >= other_value", 40 + rank, 7, 90, 400, 850000, 150000, 700000, 700000 - rank)
                       for rank in range(1, 31)], []
        for row in rows:
            near = tuple(f"near {6 * other.rank} {600000 - other.rank} {other.text}" for other in rows if other is not row)[:5]
            shown.append(f"card {row.rank} {row.predicate} {row.function} {row.line} {row.text}\ntruth {row.f} {row.s} first 3\n" + "\n".join(near))
        self.write("cards", "\n".join(shown) + "\nend\n")
        given = cbi_show.rows.Given(where.one_file("a_program.c", source), source, None, files.read_cards(self.path("cards")))
        text = "".join(line + "\n" for line in cbi_show.page.page_of(cbi_show.rows.view_of(files.Ranking(rows, None), given)))
        page = sound(self, text)
        self.assertEqual(len([level for level, _ in page.headings if level == 4]), 30)
        self.assertLessEqual(len(text.encode()), 60000)
        self.assertIn('id="L270"', text)


class Sarif(Hunting):
    def valid(self, log):
        """What a validator says of a log; none where there is no validator."""
        self.write("log.json", json.dumps(log))
        for python in (sys.executable, "/usr/bin/python3"):
            if os.path.exists(python) and subprocess.run([python, "-c", "import jsonschema"], stderr=subprocess.DEVNULL, check=False).returncode == 0:
                return subprocess.run([python, "-c", VALIDATE, SCHEMA, "log.json"], cwd=self.room, stdout=subprocess.PIPE, check=True).stdout.decode().strip()
        self.skipTest("there is no python3-jsonschema here")

    def log(self, folder=None):
        self.more_inputs()
        self.hunt("--inputs", "in puts", "--expect", "due", "--rate", "1", "--keep", "kept")
        return self.shown(folder or self.room)

    def shown(self, folder):
        """The log of the hunt, as it is shown in a folder."""
        done = subprocess.run(["cbi-show", "--hunt", self.path("kept"), "--format", "sarif"], cwd=folder, env=environment(), stdout=subprocess.PIPE, check=True)
        return json.loads(done.stdout)

    def test_it_keeps_the_schema(self):
        log = self.log()
        self.assertEqual(self.valid(log), "valid")
        result = log["runs"][0]["results"][0]
        for key, value in (("level", "fatal"), ("message", {}), ("rank", 101), ("severity", 1), ("locations", [{"physicalLocation": {}}])):
            wrong = {**result, key: value}
            self.assertNotEqual(self.valid({**log, "runs": [{**log["runs"][0], "results": [wrong]}]}), "valid", key)

    def test_what_it_says(self):
        """A fact that is true in all failing runs and in no other is an error; further places stand beside it."""
        os.makedirs(self.path(".git"))
        log = self.log()
        run = log["runs"][0]
        self.assertEqual(run["originalUriBaseIds"], {"%SRCROOT%": {"uri": sarif.pathlib.Path(self.room).as_uri() + "/"}})
        driver = run["tool"]["driver"]
        self.assertEqual((driver["name"], driver["version"], "informationUri" in driver), ("cbi", files.VERSION, False))
        for rule in driver["rules"]:
            self.assertTrue(rule["help"]["text"] and rule["fullDescription"]["text"])
        first = run["results"][0]
        place = first["locations"][0]["physicalLocation"]
        self.assertEqual(place, {"artifactLocation": {"uri": "upper.c", "uriBaseId": "%SRCROOT%"}, "region": {"startLine": 9, "snippet": {"text": "        if (c > 'a' && c <= 'z')"}}})
        self.assertEqual((first["level"], driver["rules"][first["ruleIndex"]]["id"], first["ruleId"], first["rank"]), ("error", "branches", "branches", 100))
        self.assertTrue(first["message"]["text"].startswith("if (c > 'a' && c <= 'z') was false. True in all 9 failing runs that came there, and in none of the 27 others that did. Ended by: wrong output (9 runs). Failing inputs: "),
                        first["message"])
        self.assertEqual((first["properties"]["strength"], first["properties"]["failingRuns"], first["properties"]["endings"]), (1000000, 9, {"ended": 9}))
        self.assertEqual(first["attachments"], [{"artifactLocation": {"uri": "kept/failing/02%20abc", "uriBaseId": "%SRCROOT%"}, "description": {"text": "the smallest failing input"}}])

    def test_places_are_those_of_where_the_hunt_was_made(self):
        """Shown in another folder, in a repository and in none."""
        os.makedirs(self.path("elsewhere"))
        there, here = self.log(self.path("elsewhere"))["runs"][0], self.shown(self.room)["runs"][0]
        self.assertEqual(there, here)
        self.assertEqual(there["originalUriBaseIds"], {"%SRCROOT%": {"uri": sarif.pathlib.Path(self.room).as_uri() + "/"}})
        self.assertEqual(there["results"][0]["locations"][0]["physicalLocation"]["artifactLocation"], {"uri": "upper.c", "uriBaseId": "%SRCROOT%"})
        fixes = [subprocess.run(["cbi-show", "--hunt", self.path("kept"), "--format", "quickfix"], cwd=folder, env=environment(), stdout=subprocess.PIPE, check=True).stdout.decode()
                 for folder in (self.room, self.path("elsewhere"))]
        self.assertTrue(fixes[0].startswith("upper.c:9: if (c > 'a' && c <= 'z') was false: True in all 9 failing runs"), fixes[0])
        self.assertEqual(fixes[1], fixes[0].replace("upper.c", "../upper.c"))

    def test_levels_go_by_strength_and_doubt(self):
        for strength, expected, due in ((250000, 0.0, "error"), (249999, 0.049, "warning"), (1000000, 0.05, "note"), (0, 900.0, "note")):
            found = bugs.Found(0, "main", 1, 1, 0, 1, 0, strength, "")
            told = answer.Stated(found, wording.Told(cbi_show.source.Fact("if", "is true"), where.Spot("a.c", 1), "main"))
            self.assertEqual(sarif.level_of_bug(answer.BugShown(1, told, 1, [1], expected, [], [], [], {})), due)
        row = files.Row(1, 0, "branches", "main", 1, "if is true", 1, 0, 1, 0, 0, 0, 0, 0)
        for importance, chance, due in ((500000, None, "error"), (499999, 0.9, "warning"), (100000, None, "warning"), (99999, None, "note"), (900000, 1.0, "note")):
            shown = cbi_show.rows.Shown(row._replace(importance=importance), told.told.function, told.told.fact, told.told.spot, None, cbi_show.rows.Bands(0, 0, 0, 0, 0), None, None, [], chance)
            self.assertEqual(sarif.level_of(shown), due)

    def test_fingerprints_stay_when_lines_come_in_above(self):
        before = self.log()["runs"][0]["results"][0]["partialFingerprints"]
        self.write("upper.c", "/* one more line */\n" + looking.UPPER)
        shutil.rmtree(self.path("kept"))
        after = self.log()["runs"][0]["results"][0]
        self.assertEqual((after["partialFingerprints"], after["locations"][0]["physicalLocation"]["region"]["startLine"]), (before, 10))
