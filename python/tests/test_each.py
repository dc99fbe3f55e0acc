"""Tries what is shown of a refused hand, up to its refused event, against the program."""
import json
import os
import re
import unittest
from unittest import mock

from pages import EXAMPLES, LOG, MATCH, Case, Parsed

import handref
from handref import explain, explain_play, page, page_html, page_played

NOTATIONS = {".phh": "phh", ".phhs": "phh", ".ohh": "ohh", ".ohh-to": "ohh-to", ".acpc": "acpc"}


class Each(Case):
    def said(self, command, data, notation, game=None, *more):
        words = [command, "--from", notation, *more, *(["--game", str(game)] if game else [])]
        return handref.run(words, data).decode().splitlines()

    def look(self, data, notation, game=None):
        """A file of one refused hand has everywhere the lines of the program."""
        refused = handref.judge(data, notation, game)[0].refused
        self.assertIsNotNone(refused)
        head, *lines, verdict = self.said("replay", data, notation, game, "--each")
        self.assertEqual(f"refused: {verdict}", refused.line)
        hand, = handref.replay(data, notation, game, each=True)
        self.assertEqual((f"hand {hand.hand} {hand.variant}", hand.refused.line),
                         (head, refused.line))
        played = [line for line in lines if line[0].isdigit()]
        self.assertEqual([" | ".join((
            f"{step.event} {step.text}", f"stacks {' '.join(map(str, step.stacks))}",
            f"in {' '.join(map(str, step.put))}")) for step in hand.steps], played)
        self.assertEqual((hand.finish != (), len(lines) > len(played)),
                         (refused.reason == "stated",) * 2)
        if refused.event:
            self.assertEqual(len(played), refused.event + (refused.action is None))
        points = handref.points(data, notation, 1, game)
        self.assertEqual((points.refused.line, len(points.options)), (refused.line, len(played)))
        for after, point in enumerate(points.options):
            self.assertEqual(handref.options(data, notation, 1, after, game, each=True), point)
        _, (shown,) = Parsed(page.page(data, notation, game)).parts()
        self.assertEqual([f"{event} {words} | stacks {left} | in {put}"
                          for event, words, left, put in page_html.expanded(shown)]
                         + list(page_html.ends(shown)), lines)
        after = len(played) - 1
        head, *moves = self.said("options", data, notation, game, "--hand=1", f"--after={after}",
                                 "--each")
        self.assertEqual(shown["o"][str(after)], ";".join([head.partition(": ")[2], *moves]))
        self.explained(data, notation, game, refused, hand.steps[-1],
                       head.partition(": ")[2], moves)
        return hand, refused

    def explained(self, data, notation, game, refused, last, due, moves):
        """What is said of the chips and the moves before the event is that of the program."""
        facts = explain.explain(data, notation, game).facts
        if refused.reason in ("stated", "rake too big"):
            return
        told, = [fact for fact in facts if fact.startswith("Chips after ")]
        self.assertEqual([tuple(map(int, row)) for row in re.findall(
            r"p(\d+) (\d+) \((\d+) in\)", told)], [
                (seat, *row) for seat, row in enumerate(zip(last.stacks, last.put), 1)])
        self.assertIn(explain_play.due_there(due, moves), facts)

    def spoiled(self, legal, wrong, notation, events, game=None):
        """A spoiled hand has the lines of the legal one before the event."""
        hand, refused = self.look(wrong, notation, game)
        self.assertEqual(hand.steps[-1].event, events, refused)
        self.assertEqual(hand.steps, handref.replay(legal, notation, game)[0].steps[:events + 1])

    def test_examples(self):
        count = 0
        for path in sorted(EXAMPLES.iterdir()):
            notation = NOTATIONS.get(path.suffix)
            for game in sorted(EXAMPLES.glob("*.game")) if notation == "acpc" else [None]:
                try:
                    verdicts = handref.judge(path, notation, game) if notation else []
                except handref.HandrefError:
                    continue  # it does not read, or is not of this game
                for verdict in verdicts if len(verdicts) == 1 else ():
                    if verdict.refused:
                        with self.subTest(path=path.name, game=game):
                            self.look(path.read_bytes(), notation, game)
                            count += 1
        self.assertGreater(count, 7)

    def test_phh(self):
        for name, old, new, events in (
                ("folds.phh", "cbr 6", "cbr 3", 3), ("folds.phh", "cbr 6", "cbr 101", 3),
                ("folds.phh", '"p1 f"', '"p2 f"', 4), ("folds.phh", "AhKh", "AhKhQh", 2),
                ("folds.phh", '"p2 f"', '"p2 f", "p1 cc"', 6),
                ("folds.phh", '"p2 f",\n', "", 5),
                ("all_in.phh", "'p1 sm Ac2d'", "'p1 sm Ac2c'", 15),
                ("all_in.phh", "'d db Jc3d5c'", "'d db Jc3d7h'", 7),
                ("stud.phh", "p1 cbr 2", "p1 cbr 3", 6), ("stud.phh", "p1 pb", "p2 pb", 2)):
            with self.subTest(name=name, new=new):
                self.spoiled(self.words(name), self.words(name, (old, new)), "phh", events)

    def test_unknown_up_card(self):
        wrong = self.words("stud.phh", ("????2c", "??????"))
        hand, refused = self.look(wrong, "phh")
        self.assertEqual((refused.reason, hand.steps[1].text),
                         ("UpCardUnknown", "d dh p1 ??????"))
        point = handref.points(wrong, "phh", 1).options[-1]
        self.assertEqual((point.due, point.seat, point.raises), ("bring-in", None, ()))
        self.assertIn("No move is legal there", " ".join(explain.explain(wrong, "phh").facts))

    def test_no_shown_hand(self):
        text = re.sub(r"\n *'p[13] sm .*", "", self.words(
            "all_in.phh", ("Ac2d", "????"), ("7h6h", "????")).decode()).encode()
        hand, refused = self.look(text, "phh")
        self.assertEqual((refused.reason, hand.steps[-1].event), ("no shown hand", 16))

    def test_ohh(self):
        legal = self.words("raise_adds.ohh")
        for old, new, events in (
                ('"amount":250,', '"amount":90,', 2), ('"action":"Fold"', '"action":"Check"', 3),
                ('["Kd","Tc"]', '["Kd","9s"]', 1)):
            with self.subTest(new=new):
                self.spoiled(legal, self.words("raise_adds.ohh", (old, new)), "ohh", events)
        legal = self.words("raise_goes_to.ohh-to")
        self.spoiled(legal, legal.replace(b'"amount":300', b'"amount":150'), "ohh-to", 2)

    def test_board_of_ohh(self):
        whole = handref.convert(EXAMPLES / "match.acpc", "acpc", "ohh", MATCH)
        legal = [piece.data for piece in handref.pieces(whole, "ohh", 1)][1]
        for old, new, events in ((b'["5s"]', b'["2c"]', 5), (b'["6c"]', b'["9s"]', 6),
                                 (b'["2c","3d","4h"]', b'["2c","3d","3d"]', 4)):
            with self.subTest(new=new):
                self.assertIn(old, legal)
                self.spoiled(legal, legal.replace(old, new), "ohh", events)

    def test_log(self):
        legal = b"STATE:0:cr300c/cr600c/cc/cc:9s8h|KdTc/2c3d4h/5s/6c:0|0:A|B\n"
        self.assertIsNone(handref.judge(legal, "acpc", MATCH)[0].refused)
        for old, new, events in ((b"cr300", b"cr150", 3), (b"cr600", b"cr350", 7),
                                 (b"/5s", b"/2c", 9), (b"KdTc", b"Kd9s", 1)):
            with self.subTest(new=new):
                self.assertIn(old, legal)
                self.spoiled(legal, legal.replace(old, new, 1), "acpc", events, MATCH)

    def test_stated(self):
        for name, old, new, notation, game in (
                ("all_in.phh", "572100, 1997500", "572101, 1997500", "phh", None),
                ("raise_adds.ohh", '"win_amount":200', '"win_amount":199', "ohh", None),
                ("rake.ohh", '"win_amount":190', '"win_amount":191', "ohh", None),
                ("rake.ohh", '"amount":200,"number"', '"amount":201,"number"', "ohh", None),
                ("match.value.acpc", "A", "A", "acpc", MATCH)):
            with self.subTest(new=new):
                hand, _ = self.look(self.words(name, (old, new)), notation, game)
                self.assertGreater(len(hand.finish), 1)
                self.assertTrue(hand.pots)

    def test_rake(self):
        wrong = self.words("rake.ohh", ('"rake":10', '"rake":900'))
        hand, refused = self.look(wrong, "ohh")
        self.assertEqual((refused.reason, hand.pots), ("rake too big", ()))
        self.assertEqual(explain.explain(wrong, "ohh").facts,
                         ["Pot 1 has 200 chips before its rake."])
        phh = self.words("folds.phh") + b"_rakes = [6]\n"
        self.look(phh, "phh")
        self.assertEqual(explain.explain(phh, "phh").facts,
                         ["Pot 1 has 5 chips before its rake."])

    def test_among_others(self):
        """A refused hand is shown as by itself, whatever the others of the file are."""
        lines = [LOG % number for number in range(300)]
        for number in range(40, 300):
            lines[number] = lines[number].replace(b"r300", b"r150")
        lines[7] = lines[7].replace(b"r300", b"rx")
        with mock.patch.object(page_played, "MOST_ASKED", 3):
            _, hands = Parsed(page.page(b"".join(lines), "acpc", MATCH)).parts()
        self.assertEqual([hand["n"] for hand in hands if "s" not in hand], [8])
        self.assertEqual({hand["e"] for hand in hands[40:]}, {"d dh p1 9s8h;d dh p2 KdTc"})
        text = "\n".join(f"[{number}]\n{self.words(name).decode()}" for number, name in enumerate(
            ("folds.phh", "small_raise.phh", "folds.phh", "early_end.phh"), 1)).encode()
        played = handref.replay(text, "phh", each=True)
        self.assertEqual([hand.refused and hand.refused.reason for hand in played],
                         [None, "RaiseTooSmall", None, "ends early"])
        self.assertEqual(handref.replay(self.words("folds.phh"), "phh", each=True)[0].steps,
                         played[2].steps)
        self.assertIsNone(handref.points(text, "phh", 3).refused)
        self.assertEqual(handref.points(text, "phh", 3).options[-1].due, "over")
        self.assertEqual(handref.points(text, "phh", 4).refused.hand, 4)
        _, hands = Parsed(page.page(text, "phh")).parts()
        self.assertEqual([len(hand["e"].split(";")) for hand in hands],
                         [len(hand.steps) - 1 for hand in played])

    def test_names(self):
        """What a page says of the names, the antes and the day of a refused hand is what it says
        of a legal one."""
        hand = json.loads(self.words("raise_adds.ohh"))
        hand["ohh"].update(table_name="T", site_name="S", currency="EUR", game_number="7",
                           start_date_utc="2023-12-31T10:20:30Z", ante_amount=5)
        hand["ohh"]["pots"] = []
        for player in (1, 2):
            hand["ohh"]["rounds"][0]["actions"].insert(0, {
                "action": "Post Ante", "player_id": player, "amount": 5, "is_allin": False})
        hand["ohh"].pop("pots")
        legal = json.dumps(hand).encode()
        wrong = legal.replace(b'"amount": 250', b'"amount": 90')
        self.assertNotEqual(legal, wrong)
        index, hands = Parsed(page.page(legal + b"\n\n" + wrong, "ohh")).parts()
        self.assertIsNone(handref.judge(legal, "ohh")[0].refused)
        self.assertEqual(index["hands"][0][3], index["hands"][1][3])
        self.assertEqual(index["names"], ["A", "B"])
        for key in ("m", "a", "s", "i", "b", "g"):
            self.assertEqual(hands[0][key], hands[1][key], key)
        self.assertIn("2023-12-31", hands[0]["m"])
        named = self.words("small_raise.phh").decode() + 'players = ["X", "Y", "Z"]\n'
        index, _ = Parsed(page.page(named.encode(), "phh")).parts()
        self.assertEqual(index["names"], ["X", "Y", "Z"])

    def test_cut(self):
        """An answer that is cut is not taken for that of another hand."""
        program = self.folder / "program"
        own = os.environ.get("HANDREF_PROGRAM") or "handref"
        program.write_text(f'#!/bin/sh\n"{own}" "$@" | head -n 3\n')
        program.chmod(0o755)
        with mock.patch.dict(os.environ, HANDREF_PROGRAM=str(program)):
            with self.assertRaises(handref.UnclearOutput):
                handref.replay(EXAMPLES / "small_raise.phh", "phh", each=True)
            with self.assertRaises(handref.UnclearOutput):
                handref.points(EXAMPLES / "small_raise.phh", "phh", 1)

    def test_other_verdict(self):
        """A line that the program does not print of a hand is not explained by another one."""
        said = explain.explain(EXAMPLES / "small_raise.phh", "phh", None,
                               "refused: hand 1: event 3, action 3: WrongSeat").facts
        self.assertEqual(said[0], "Asked now, the program says of this hand: event 4, action 4: "
                                  "RaiseTooSmall.")
        self.assertEqual(said[1], "Legal there: deal street 1")
        said = explain.explain(EXAMPLES / "folds.phh", "phh", None,
                               "refused: hand 1: event 9, action 9: WrongSeat").facts
        self.assertEqual(said, ["Asked now, the program says of this hand: legal."])


if __name__ == "__main__":
    unittest.main()
