"""Tries the script of a page in headless Chromium, where it is installed (Debian: chromium)."""
import html
import json
import re
import shutil
import subprocess
import unittest

from pages import EXAMPLES, HERE, LOG, MATCH, NAMES, Case, Parsed, named

import handref
from handref import event_words, formats, page, single_hands, toml

BROWSERS = ("chromium-headless-shell", "chromium", "chromium-browser", "google-chrome")
CASES = HERE.parent.parent / "tests" / "cases"

# Goes by keys through each event of each hand, and writes down what the page then says.
WALK = """<script>addEventListener("load", async () => {
  const wait = () => new Promise((done) => setTimeout(done, 20));
  const press = (key, shiftKey) => document.body.dispatchEvent(
    new KeyboardEvent("keydown", { key, shiftKey, bubbles: true, cancelable: true }));
  const text = (id) => document.getElementById(id).textContent;
  const found = [], faults = [];
  addEventListener("error", (event) => faults.push(String(event.message)));
  await wait();
  const count = document.querySelectorAll("#rows tr").length;
  press("Home");
  while (!document.getElementById("before").disabled) {
    press("ArrowLeft", true);
    await wait();
  }
  for (let hand = 0; hand < count; hand += 1) {
    press("Home");
    const said = [[text("own"), text("said")]];
    while (!document.getElementById("last").disabled) {
      press("ArrowRight");
      said.push([text("own"), text("said")]);
    }
    const wide = [...document.querySelectorAll("#table text.small, #table text.won")]
      .filter((each) => each.getComputedTextLength() > 160).length;
    found.push([text("hand-head"), said, wide]);
    press("ArrowRight", true);
    await wait();
  }
  const pre = document.createElement("pre");
  pre.id = "walk";
  pre.textContent = JSON.stringify([found, faults]);
  document.body.append(pre);
});</script>"""
IS_QUICK = False  # `./handref --test` leaves these out


# What is where after the script of a page: the lowest edges of the table and of the buttons, what
# is wider than the window, and how many stops of the tabulator come before the buttons.
MEASURE = """<script>addEventListener("load", async () => {
  const at = (id) => document.getElementById(id);
  for (let tries = 0; tries < 500 && !at("table").firstChild; tries += 1) {
    await new Promise((done) => setTimeout(done, 20));
  }
  const down = (element) => element.getBoundingClientRect().bottom;
  const shown = [...document.querySelectorAll("body *")].filter((each) =>
    each.checkVisibility() && !each.closest("svg svg, .cut, #chosen, #events") && each.tagName !==
    "OPTION");
  const wide = shown.filter((each) => each.getBoundingClientRect().right > innerWidth + 1
    || each.getBoundingClientRect().left < -1).map((each) => each.outerHTML.slice(0, 99));
  for (const id of ["chosen", "events"]) {
    if (at(id).scrollWidth > at(id).clientWidth) wide.push(id);
  }
  const stops = [...document.querySelectorAll("a[href], button, input, select, [tabindex]")]
    .filter((each) => each.tabIndex >= 0 && !each.disabled && each.checkVisibility());
  parent.postMessage(JSON.stringify({ table: down(at("table").firstChild), last: down(at("last")),
    wide, links: document.querySelectorAll("#rows a").length,
    before: stops.findIndex((each) => each.id === "on" || each.id === "range") }), "*");
});</script>"""
FRAME = """<!DOCTYPE html><iframe src="%s" width="%d" height="%d" style="border:0"></iframe><pre
id="told"></pre><script>addEventListener("message", (event) => {
  document.getElementById("told").textContent = event.data;
});</script>"""


class Browser(Case):
    """What the script of a page puts there is read back as a document."""

    def setUp(self):
        super().setUp()
        self.browser = next(filter(None, map(shutil.which, BROWSERS)), None)
        if not self.browser:
            self.skipTest("chromium is not installed")

    def made(self, hands, notation, game=None, **more):
        out = self.folder / "page.html"
        out.unlink(missing_ok=True)  # a test has changed it
        page.page_file(hands, notation, out, game, **more)
        return out

    def opened(self, out, place="", *flags):
        """The document of a page, after its script."""
        done = subprocess.run(
            [self.browser, "--headless", "--no-sandbox", "--disable-gpu",
             "--virtual-time-budget=20000", f"--user-data-dir={self.folder / 'home'}", *flags,
             "--dump-dom", out.as_uri() + place], capture_output=True, text=True, timeout=240)
        self.assertIn("</html>", done.stdout, done.stderr[-2000:])
        return done.stdout

    def dump(self, hands, notation, game=None, place=""):
        return self.opened(self.made(hands, notation, game), place)

    def said(self, text, part):
        found = re.search(rf'<(\w+) id="{part}"[^>]*>(.*?)</\1>', text, re.S)
        return html.unescape(re.sub("<[^>]*>", "", found[2])) if found else None

    def walked(self, out):
        """What a page says of each event of each hand, as somebody goes there by keys."""
        text = re.sub('<meta http-equiv="Content-Security-Policy"[^>]*>', "", out.read_text())
        out.write_text(text.replace("</body>", WALK + "</body>"))
        found = re.search('<pre id="walk">(.*?)</pre>', self.opened(out), re.S)
        self.assertIsNotNone(found)
        hands, faults = json.loads(html.unescape(found[1]))
        self.assertEqual(faults, [])
        return hands

    def games(self):
        """A long legal hand of each of the eleven games."""
        found = {}
        for file in sorted(CASES.glob("*.jsonl")):
            for line in file.read_text().splitlines():
                case = json.loads(line)
                text = case.get("input")
                if case["status"] or "phh" not in " ".join(case["words"]) or "variant" not in (
                        text or ""):
                    continue
                table = toml.read(text)
                old = found.get(table.get("variant"), {"actions": []})
                if "actions" in table and len(table["actions"]) > len(old["actions"]):
                    found[table["variant"]] = table
        return found

    def test_eleven_games(self):
        """By keys, each event of a hand of each game is said as `replay` says it."""
        if not CASES.exists():
            self.skipTest("the folder cases is not here")
        games = self.games()
        self.assertEqual(set(games), set(formats.GAMES))
        hands = single_hands.together(
            [single_hands.document(games[code]) for code in formats.GAMES], "phh")
        replayed = "\n".join(self.lines(hands, "phh")).split("hand ")[1:]
        walked = self.walked(self.made(hands, "phh"))
        self.assertEqual(len(walked), 11)
        index, told = Parsed(page.page(hands, "phh")).parts()
        for (head, said, wide), name, wanted, hand in zip(
                walked, formats.GAMES.values(), replayed, told):
            lines = wanted.strip("\n").split("\n")[1:]
            events = [line for line in lines if line[0].isdigit()]
            self.assertEqual(head.partition(": ")[2], name)
            self.assertEqual([own for own, _ in said], [*events, "\n".join(lines[len(events):])])
            names = [index["names"][entry] for entry in hand["p"]]
            names = [name if isinstance(name, str) else name[1] for name in names]
            self.assertEqual([words for _, words in said],
                             [event_words.plain(each, names) for each in
                              event_words.in_words(hand)])
            self.assertEqual(wide, 0, name)

    def measured(self, out, width, height):
        """What is where on a page in a window of this size."""
        text = re.sub('<meta http-equiv="Content-Security-Policy"[^>]*>', "", out.read_text())
        out.write_text(text.replace("</body>", MEASURE + "</body>"))
        frame = self.folder / "frame.html"
        frame.write_text(FRAME % (out.as_uri(), width, height))
        return json.loads(html.unescape(self.said(self.opened(
            frame, "", "--window-size=1400,1000"), "told")))

    def test_above_the_fold(self):
        """The table and the buttons for its events are seen at once, no column is cut, and the
        tabulator reaches the buttons before the links of the list: on a screen and on a phone."""
        names = 'players = ["a long name of a player", "another name", "Cy"]\n'
        hand = (EXAMPLES / "folds.phh").read_text() + names
        many = "\n".join(f"[{number}]\n" + hand.replace(
            "cbr 6", "cbr 3" if number == 200 else "cbr 6") for number in range(1, 301)).encode()
        for hands, notation, game, links in (
                (many, "phh", None, 200), (EXAMPLES / "ten_seats.phh", "phh", None, 1),
                (EXAMPLES / "stud.phh", "phh", None, 1), (EXAMPLES / "evening.phhs", "phh", None, 3),
                (EXAMPLES / "match.raise.acpc", "acpc", MATCH, 1)):
            for width, height in ((1280, 800), (390, 844)):
                with self.subTest(hands=str(hands)[:80], width=width):
                    found = self.measured(self.made(hands, notation, game), width, height)
                    self.assertLessEqual(found["table"], height)
                    self.assertLessEqual(found["last"], height)
                    self.assertGreater(found["table"], found["last"])
                    self.assertEqual(found["wide"], [])
                    self.assertEqual(found["links"], links)
                    self.assertIn(found["before"], range(6))

    def test_events(self):
        replayed = self.lines((EXAMPLES / "all_in.phh").read_bytes(), "phh")
        for event in (0, 18):
            text = self.dump(EXAMPLES / "all_in.phh", "phh", place=f"#hand-1-event-{event}")
            self.assertEqual(self.said(text, "own"), replayed[event + 1])
        self.assertIn("Now due: over", text)

    def test_refused(self):
        for name, notation, game, wanted, legal in (
                ("match.raise.acpc", "acpc", MATCH, "event 3 is refused: RaiseTooSmall",
                 "B may fold, call 50, raise to 200..20000"),
                ("small_raise.phh", "phh", None, "event 4 is refused: RaiseTooSmall",
                 "p3 may fold, call 2, raise to 4..100"),
                ("check_for_fold.ohh", "ohh", None, "event 4 is refused: AmountDiffers",
                 "A may fold, call 200, raise to 500..20000")):
            with self.subTest(name=name):
                text = self.dump(EXAMPLES / name, notation, game)
                self.assertIn(wanted, text)
                self.assertIn(legal, self.said(text, "now"))

    def test_packed(self):
        data = b"".join(LOG % number for number in range(700))
        text = self.dump(data, "acpc", MATCH, "#hand-600-event-3")
        self.assertEqual(self.said(text, "own"), "3 p2 cbr 300 | stacks 19900 19700 | in 100 300")
        self.assertEqual(self.said(text, "said"), "B raises to 300")
        self.assertIn('<h2 id="hand-head">Hand 600: ', text)

    def test_names(self):
        """Hostile names stay text: they add no element, and run nothing."""
        pairs = list(zip(NAMES[::2], NAMES[1::2]))
        hands = "\n\n".join(named(*pair) for pair in pairs).encode()
        plain = "\n\n".join(named(f"A{place}", f"B{place}") for place, _ in enumerate(
            pairs)).encode()
        for place in ("#hand-1", "#hand-3-event-2"):
            text = self.dump(hands, "ohh", place=place)
            other = self.dump(plain, "ohh", place=place)
            for tag in ("script", "img", "style", "svg", "iframe", "a"):
                self.assertEqual(len(re.findall(f"<{tag}[ >]", text)),
                                 len(re.findall(f"<{tag}[ >]", other)), tag)
            self.assertIn('class="live"', text)
            for key, value in (pair for _, each in Parsed(text).tags for pair in each.items()):
                self.assertFalse(key.startswith("on"), key)
                self.assertTrue(key not in ("href", "src") or value.startswith("#"), value)
            titles = [re.search("<title>(.*?)</title>", each, re.S)[1] for each in (text, other)]
            self.assertEqual(*titles)  # no name has run

    def test_without_script(self):
        """Without JavaScript the hands are a list to read."""
        out = self.made(EXAMPLES / "all_in.phh", "phh")
        text, count = re.subn("script-src '[^']*'", "script-src 'none'", out.read_text())
        self.assertEqual(count, 1)
        out.write_text(text)
        text = self.opened(out)
        self.assertNotIn('class="live"', text)
        said = re.sub("<[^>]*>", " ", text[text.index('id="listed"'):])
        for line in self.lines((EXAMPLES / "all_in.phh").read_bytes(), "phh")[2:-3]:
            for words in line.split(" | "):
                self.assertIn(re.sub(r"^(\d+|stacks|in) ", "", words), html.unescape(said))


if __name__ == "__main__":
    unittest.main()
