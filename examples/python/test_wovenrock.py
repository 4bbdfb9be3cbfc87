"""The worked example through every call of the module, and refusals. WOVENROCK_SHARED names the shared object that the script `shared` makes."""

import os
import unittest

from wovenrock import Library, Refused

KEY, MESSAGE, COMMITMENT = [3, 5, 7, 2], [1, -1, 1, 0], [15, 4]
ROUNDS, LAST, CLAIMS = [4, 1, 6, 0, 12, 1], [1, 0], [9, 6]
# the same with a second row in the key, of weights 2 and 5
TWO_KEY, TWO_COMMITMENT = KEY + [2, 0, 5, 0], COMMITMENT + [7, 15]
TWO_ROUNDS, TWO_CLAIMS = [4, 1, 1, 16, 6, 0, 12, 6, 12, 1, 11, 0], CLAIMS + [1, 11]
TRANSCRIPT = {"key": KEY, "commitment": COMMITMENT, "rounds": ROUNDS, "challenges": [1], "last": LAST, "claims": CLAIMS}


class WorkedExample(unittest.TestCase):
    def setUp(self):
        self.library = Library(os.environ["WOVENROCK_SHARED"])
        self.settings = self.library.settings(2, 1, 17, 1)

    def refused(self, number, call, *arguments):
        with self.assertRaises(Refused) as caught:
            call(*arguments)
        self.assertEqual(caught.exception.number, number)

    def test_settings(self):
        self.refused(3, self.library.settings, 3, 1, 17, 1)
        self.refused(6, self.library.settings, 2, 1, 17, 0)
        for rows in (0, 5, 2**31, 2**32 - 1):
            self.refused(16, self.library.settings, 2, 1, 17, 1, rows)
        self.refused(6, self.library.settings, 2, 1, 17, 0, 5)
        self.assertRaises(ValueError, self.library.settings, 2**32 + 2, 1, 17, 1)

    def test_moves(self):
        library, settings = self.library, self.settings
        self.assertEqual(library.commit(settings, KEY, MESSAGE), COMMITMENT)
        self.assertEqual(library.round(settings, 0, KEY, MESSAGE), ROUNDS)
        folded_key, folded_message = library.fold(settings, 0, 1, KEY, MESSAGE)
        self.assertEqual((folded_key, folded_message), ([1, 12, 7, 2], [1, 0, 1, 0]))
        self.assertEqual(library.end(settings, 1, folded_message), LAST)
        record = library.start(settings, COMMITMENT)
        after, holds = library.session_round(record, ROUNDS, 1)
        self.assertTrue(holds)
        self.assertEqual(library.session_end(after, LAST, KEY)[1], True)
        closed, accepted = library.session_end(after, [2, 0], KEY)
        self.assertFalse(accepted)
        self.refused(11, library.session_end, closed, LAST, KEY)
        self.assertFalse(library.session_round(record, [0] * 6, 1)[1])

    def test_whole(self):
        opened = self.library.open(self.settings, KEY, MESSAGE, [1])
        self.assertEqual((opened.commitment, opened.rounds, opened.last), (COMMITMENT, ROUNDS, LAST))
        self.assertTrue(opened.accepted)
        self.assertEqual(opened.message, [1, 0, 1, 0])
        self.assertTrue(self.library.check(self.settings, COMMITMENT, LAST, KEY, ROUNDS, [1]))
        self.assertFalse(self.library.check(self.settings, COMMITMENT, [2, 0], KEY, ROUNDS, [1]))

    def test_relaxed(self):
        leaves = [2, -1, 1, 0, 0, -1]
        w = self.library.extract(self.settings, COMMITMENT, KEY, ROUNDS, [0, 1, 2], leaves)
        self.assertEqual(w, [4, -4, 4, 0])
        self.assertTrue(self.library.judge(self.settings, COMMITMENT, 4, KEY, w))
        self.assertFalse(self.library.judge(self.settings, COMMITMENT, 5, KEY, w))
        self.refused(15, self.library.judge, self.settings, COMMITMENT, 17, KEY, [0, 0, 0, 0])
        self.refused(12, self.library.extract, self.settings, COMMITMENT, KEY, ROUNDS, [0, 1, 1], leaves)

    def test_text(self):
        text = self.library.write(self.settings, TRANSCRIPT)
        self.assertEqual(self.library.look(text), self.settings)
        self.assertEqual(self.library.read(text, TRANSCRIPT), (self.settings, TRANSCRIPT))
        self.assertTrue(self.library.verify(text))
        self.assertFalse(self.library.verify(text.replace(b"6 0 0 1\n", b"6 0 0 2\n")))
        self.refused(2, self.library.verify, text[:-1])
        self.refused(7, self.library.read, text, ["key"])
        self.assertRaises(ValueError, self.library.read, text, ["keys"])
        asked = self.library.write(self.settings, {"key": KEY, "message": MESSAGE, "challenges": [1]})
        listing = {name: TRANSCRIPT[name] for name in ("commitment", "rounds", "challenges", "last", "claims")}
        self.assertEqual(self.library.prove(asked), self.library.write(self.settings, listing))

    def test_claims(self):
        text = self.library.write(self.settings, TRANSCRIPT)
        self.assertTrue(text.endswith(b"6 0 1 0\n7 0 0 9\n7 0 1 6\n"))
        # one that is wrong is rejected, one that is no residue or missing refused
        self.assertFalse(self.library.verify(text.replace(b"7 0 1 6\n", b"7 0 1 7\n")))
        self.refused(8, self.library.verify, text.replace(b"7 0 1 6\n", b"7 0 1 17\n"))
        self.refused(7, self.library.verify, text.replace(b"7 0 1 6\n", b""))
        self.refused(7, self.library.verify, text + b"7 1 0 0\n")
        without = {name: table for name, table in TRANSCRIPT.items() if name != "claims"}
        text = self.library.write(self.settings, without)
        self.refused(7, self.library.verify, text)
        self.refused(7, self.library.read, text, TRANSCRIPT)
        self.refused(7, self.library.write, self.settings, {**without, "claims": CLAIMS[:1]})
        self.refused(8, self.library.write, self.settings, {**without, "claims": [9, 17]})
        # with depth 0 there are none
        flat = self.library.settings(2, 0, 17, 1)
        tables = {"key": [3, 5], "commitment": [8, 2], "rounds": [], "challenges": [], "last": [1, -1], "claims": []}
        text = self.library.write(flat, tables)
        self.assertTrue(text.endswith(b"6 0 1 -1\n") and self.library.verify(text))
        self.assertEqual(self.library.read(text, tables), (flat, tables))

    def test_two_rows(self):
        library = self.library
        settings = library.settings(2, 1, 17, 1, 2)
        self.assertEqual(library.commit(settings, TWO_KEY, MESSAGE), TWO_COMMITMENT)
        opened = library.open(settings, TWO_KEY, MESSAGE, [1])
        self.assertEqual((opened.commitment, opened.rounds, opened.last), (TWO_COMMITMENT, TWO_ROUNDS, LAST))
        self.assertEqual(opened.key, [1, 12, 7, 2, 2, 5, 5, 0])
        record = library.start(settings, TWO_COMMITMENT)
        self.assertEqual((record[15:17], record[143:145]), (COMMITMENT, [7, 15]))
        after, holds = library.session_round(record, TWO_ROUNDS, 1)
        self.assertTrue(holds)
        self.assertEqual((after[15:17], after[143:145]), ([9, 6], [1, 11]))
        self.assertTrue(library.session_end(after, LAST, TWO_KEY)[1])
        w = library.extract(settings, TWO_COMMITMENT, TWO_KEY, TWO_ROUNDS, [0, 1, 2], [2, -1, 1, 0, 0, -1])
        self.assertEqual(w, [4, -4, 4, 0])
        self.assertTrue(library.judge(settings, TWO_COMMITMENT, 4, TWO_KEY, w))
        # one row that does not hold is enough
        self.assertFalse(library.judge(settings, COMMITMENT + [7, 14], 4, TWO_KEY, w))
        self.assertFalse(library.check(settings, COMMITMENT + [7, 14], LAST, TWO_KEY, TWO_ROUNDS, [1]))
        tables = {"key": TWO_KEY, "commitment": TWO_COMMITMENT, "rounds": TWO_ROUNDS, "challenges": [1], "last": LAST}
        tables["claims"] = TWO_CLAIMS
        text = library.write(settings, tables)
        self.assertIn(b"0 0 4 2\n1 0 0 3\n", text)
        self.assertEqual(library.read(text, tables), (settings, tables))
        self.assertTrue(library.verify(text))
        # a wrong claim of either row is enough
        for line in (b"7 0 0 9\n", b"7 1 1 11\n"):
            self.assertFalse(library.verify(text.replace(line, line[:6] + b"0\n")))

    def test_largest_modulus(self):
        library, q = self.library, 2**61 - 1
        settings = library.settings(2, 1, q, 1)
        self.refused(5, library.settings, 2, 1, q + 2, 1)
        self.refused(5, library.settings, 2, 1, 2**64 - 1, 1)
        key = [q - 1, q - 2, 7, 2**60]
        opened = library.open(settings, key, MESSAGE, [3])
        self.assertTrue(opened.accepted)
        self.assertTrue(library.check(settings, opened.commitment, opened.last, key, opened.rounds, [3]))
        text = library.write(settings, {"key": key, "commitment": opened.commitment})
        self.assertEqual(library.read(text, ["key", "commitment"])[1]["key"], key)
        record = library.start(settings, opened.commitment)
        record[0] += 2**32
        self.refused(3, library.session_round, record, opened.rounds, 3)

    def test_largest_degree(self):
        library, q = self.library, 12289
        for other in (q - 2, q - 1, 2 * q, 2**61 - 1):
            self.refused(3, library.settings, 128, 5, other, 127)
        settings = library.settings(128, 5, q, 127)
        key = [(7 * i + 3) % q for i in range(settings.table)]
        message = [i % 255 - 127 for i in range(settings.table)]
        challenges = [255, 0, 128, 3, 64]
        opened = library.open(settings, key, message, challenges)
        self.assertTrue(opened.accepted)
        self.assertTrue(library.check(settings, opened.commitment, opened.last, key, opened.rounds, challenges))
        record = library.start(settings, opened.commitment)
        self.assertEqual((len(record), record[15:143]), (527, opened.commitment))
        self.assertEqual(set(record[143:]), {0})

    def test_lengths(self):
        self.refused(7, self.library.commit, self.settings, KEY + [0], MESSAGE)
        self.refused(7, self.library.start, self.settings, [15])
        self.refused(7, self.library.session_round, [0] * 526, ROUNDS, 1)
        deep = self.library.settings(4, 2, 17, 1)
        lengths = (deep.element, deep.polynomial, deep.table, deep.rounds, deep.challenges, deep.nodes, deep.leaves, deep.slack)
        self.assertEqual(lengths, (4, 12, 16, 24, 2, 4, 9, 16))
        deep = self.library.settings(4, 2, 17, 1, 3)
        self.assertEqual((deep.commitment, deep.polynomial, deep.key, deep.table, deep.rounds, deep.claims), (12, 36, 48, 16, 72, 24))


if __name__ == "__main__":
    unittest.main()
