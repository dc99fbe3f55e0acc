"""Tries the numbers that hands of OHH get where a long file is cut: as the program gives them in one call."""
import json
import os
import sys
import tempfile
import unittest
from pathlib import Path
from unittest import mock

HERE = Path(__file__).resolve().parent
sys.path.insert(0, str(HERE.parent))
import handref  # noqa: E402
from handref import many, ohh, sources  # noqa: E402

EXAMPLES = next(path for path in (HERE.parents[1] / "tests" / "examples", HERE.parents[1] / "examples") if path.exists())
HAND = (EXAMPLES / "raise_adds.ohh").read_text().strip()


class Numbers(unittest.TestCase):
    def hands(self):
        """Hands that a change of the text by a pattern would spoil: legal ones without a number."""
        hand = json.loads(HAND)
        hand["ohh"].pop("game_number", None)
        plain = json.dumps(hand)
        own = json.dumps({"ohh": {"game_number": "own", **hand["ohh"]}})
        named = plain.replace('"name": "A"', '"name": "game_number"')
        self.assertNotEqual(named, plain)
        return [plain, own, plain.replace('{"ohh"', '{"x": {"ohh": {}}, "ohh"'), named,
                plain.replace('"ohh"', '"\\u006fhh"'), plain.replace('{"ohh": {', ' {\t"ohh" :\n { '),
                plain.replace('{"ohh": {', '{"y": "\\"ohh\\":{", "ohh": {"game_numbers": 1, '),
                plain.replace('{"ohh": {', '{"é\\ud83d\\ude00": [1e5, ' + "9" * 60 + '], "ohh": {'),
                plain.replace('"name": "A"', '"name": "\\"ohh\\": {"'), plain.replace('{"ohh": {', '{"ohh": {"x": null, ')]

    def test_as_in_one_call(self):
        for hand in self.hands():
            text = "\n\n".join([HAND, HAND, hand, HAND, hand, hand]).encode()
            wanted = handref.convert(text, "ohh", "ohh")
            self.assertEqual(wanted.count(b'"game_number":'), 6, hand)
            with mock.patch.object(handref, "MOST_HANDS", 2), tempfile.TemporaryDirectory() as folder:
                self.assertEqual(b"".join(handref.convert_long(text, "ohh", "ohh")), wanted)
                path, out = os.path.join(folder, "a.ohh"), os.path.join(folder, "b.ohh")
                Path(path).write_bytes(text)
                with mock.patch.object(sources, "PIECE", 300):
                    result = many.convert([path], "ohh", out, tell=self.fail)
                self.assertEqual((result.hands, Path(out).read_bytes()), (6, wanted))

    def test_what_does_not_read(self):
        """What is no hand is left as it is, and the program says why it is not one, and which."""
        for text in ("", "{", "[]", '{"ohh"', '{"ohh":1}', '{"ohh":{', '{"x":1}', '{"ohh":{"a":1,}}', '\ufeff{"ohh":{}}',
                     "{'ohh':{}}", '{"ohh":[1]}', "[" * 100_000, '{"ohh":' + "[" * 100_000, '{"x" 1,"ohh":{}}', '{,"ohh":{}}'):
            self.assertEqual(ohh.numbered(text.encode(), 7), text.encode())
        self.assertEqual(ohh.numbered(b'{"ohh":{"a":"\xff"}}', 7), b'{"ohh":{"a":"\xff"}}')
        self.assertEqual(ohh.numbered(b'{"ohh": { }}', 7), b'{"ohh": {"game_number":"7" }}')
        self.assertEqual(ohh.numbered(b' {"\xc3\xa9":1,"ohh":{"a":2}}\n', 12), b' {"\xc3\xa9":1,"ohh":{"game_number":"12","a":2}}\n')
        wrong = "\n\n".join([HAND, HAND, HAND.replace('"ohh"', '"OHH"')]).encode()
        with mock.patch.object(handref, "MOST_HANDS", 2), self.assertRaises(handref.HandrefError) as caught:
            list(handref.convert_long(wrong, "ohh", "ohh"))
        with self.assertRaises(handref.HandrefError) as whole:
            handref.convert(wrong, "ohh", "ohh")
        self.assertEqual(str(caught.exception), str(whole.exception))


if __name__ == "__main__":
    unittest.main()
