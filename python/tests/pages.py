"""What the tests of pages share: examples, and a page as its parts."""
import base64
import html.parser
import json
import sys
import tempfile
import unittest
import zlib
from pathlib import Path

HERE = Path(__file__).resolve().parent
sys.path.insert(0, str(HERE.parent))
import handref  # noqa: E402

EXAMPLES = HERE.parent.parent / "examples"
MATCH = EXAMPLES / "match.game"
LOG = b"STATE:%d:r300f:9s8h|KdTc:-100|100:A|B\n"
# Names that try to be markup, to turn the text round them, or not to be seen.
NAMES = ["<script>alert(1)</script>", "</script><!--", "\"'><img src=x onerror=alert(1)>",
         "\u202eabc\u200f", "a" * 255, "\u05d0" * 120, "\u0301" * 120, "&lt;", "\\u{202e}",
         "\x7f\t", "\u2028alert(1)//\u2029", "\" onmouseover=\"alert(1)\" x='",
         "'+alert(1)+'${alert(1)}`", "<svg onload=document.title='x'>", "-->]]></textarea></title>",
         "__proto__"]


def named(*names):
    """A hand of OHH with these names, at a table whose name is markup."""
    hand = json.loads((EXAMPLES / "raise_adds.ohh").read_bytes())
    for player, name in zip(hand["ohh"]["players"], names):
        player["name"] = name
    hand["ohh"]["table_name"] = hand["ohh"]["site_name"] = "</style><script>"
    return json.dumps(hand)


class Case(unittest.TestCase):
    def setUp(self):
        folder = tempfile.TemporaryDirectory()
        self.addCleanup(folder.cleanup)
        self.folder = Path(folder.name)

    def words(self, name, *changes):
        """The text of an example, with changes that have to be there."""
        text = (EXAMPLES / name).read_text()
        for old, new in changes:
            self.assertIn(old, text)
            text = text.replace(old, new)
        return text.encode()

    def lines(self, data, notation, game=None):
        words = ["replay", "--from", notation, *(["--game", str(game)] if game else [])]
        return handref.run(words, data).decode().splitlines()


class Parsed(html.parser.HTMLParser):
    """The elements of a page, its scripts by their attributes, and the text of all others."""

    def __init__(self, text):
        super().__init__()
        self.tags, self.scripts, self.said, self.inside = [], [], [], None
        self.feed(text)

    def handle_starttag(self, tag, attributes):
        self.tags.append((tag, dict(attributes)))
        if tag in ("script", "style"):
            self.inside = (tag, dict(attributes))
            self.scripts.append([*self.inside, ""])

    def handle_endtag(self, tag):
        if self.inside and tag == self.inside[0]:
            self.inside = None

    def handle_data(self, data):
        if self.inside:
            self.scripts[-1][2] += data
        else:
            self.said.append(data)

    def parts(self):
        """What the script of the page shows: its list of hands, and the hands."""
        found = []
        for _, attributes, text in self.scripts:
            if "id" in attributes or "class" in attributes:
                if attributes["type"] == "text/plain":
                    text = zlib.decompress(base64.b64decode(text)).decode()
                found.append(json.loads(text))
        return found[0], [hand for block in found[1:] for hand in block]
