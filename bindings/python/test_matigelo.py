"""Parts of the judge's lists of answers (vectors/sources.txt, vectors/json.txt, vectors/back.txt), the example of matigelo.py, and trees."""
import ctypes
import doctest
import os
import unittest

import matigelo

VECTORS = os.path.join(os.path.dirname(os.path.abspath(__file__)), "..", "..", "vectors")


def unhex(word: str) -> bytes:
    return b"" if word == "-" else bytes.fromhex(word)


class Answers(unittest.TestCase):
    def test_list(self) -> None:
        seen = trees = 0
        with open(os.path.join(VECTORS, "sources.txt")) as lines:
            # every fourth line, so that this stays quick; the gate replays all of them
            for line in list(lines)[::4]:
                words = line.split()
                numbers, output = matigelo.answer(unhex(words[2]), int(words[0]), int(words[1]))
                self.assertEqual(list(numbers), [int(w) for w in words[3:8]], line[:200])
                image = unhex(words[8])
                self.assertEqual(output, image + bytes(int(words[1]) - len(image)), line[:200])
                if numbers[0] == 0:
                    # it is read back, and every record has its layout
                    self.assertGreater(sum(1 for _ in matigelo.back(image).walk()), 0)
                    trees += 1
                seen += 1
        self.assertGreater(seen, 1_500)
        self.assertGreater(trees, 400)

    def test_texts(self) -> None:
        seen = 0
        with open(os.path.join(VECTORS, "json.txt")) as lines:
            for line in lines:
                words = line.split()
                numbers, output = matigelo.json_answer(unhex(words[2]), int(words[1]))
                self.assertEqual(list(numbers), [int(w) for w in words[3:8]], line[:200])
                image = unhex(words[8])
                self.assertEqual(output, image + bytes(int(words[1]) - len(image)), line[:200])
                seen += 1
        self.assertGreater(seen, 4_000)

    def test_json(self) -> None:
        text = b'{"bays": [1, -2], "open": true}'
        self.assertEqual(matigelo.json(text), matigelo.read(text))
        self.assertEqual(matigelo.json(b'"\\/"').parts, {"text": "/"})
        self.assertEqual(matigelo.read(b'"\\/"'), matigelo.Refusal(9, 0, 4, 1))
        self.assertEqual(matigelo.json(b" " * 65_001), matigelo.Refusal(2, 0, 0, 0))
        self.assertEqual(matigelo.json(b"[" * 201), matigelo.Refusal(11, 200, 200, 0))

    def test_images(self) -> None:
        seen = 0
        with open(os.path.join(VECTORS, "back.txt")) as lines:
            for line in lines:
                words = line.split()
                image = unhex(words[1])
                numbers, links = matigelo.links(image, len(image) // 3 * 2 + 3)
                self.assertEqual(list(numbers), [int(w) for w in words[2:5]], line[:200])
                self.assertEqual(set(links[2 * numbers[2] :]), {0}, line[:200])
                tree = matigelo.back(image)
                if numbers[0] == 0:
                    self.assertEqual(sum(1 for _ in tree.walk()), numbers[2], line[:200])
                else:
                    self.assertEqual(tree, matigelo.BadImage(*numbers[:2]), line[:200])
                seen += 1
        self.assertGreater(seen, 1_000)

    def test_an_old_image(self) -> None:
        old = unhex("060005000100026106000500030004620d0001000c000101")
        self.assertEqual(matigelo.back(old).children[0].parts, {"operator": 0})
        self.assertEqual(matigelo.links(old, 15), ((24, 0, 16), [0] * 15))
        self.assertEqual(str(matigelo.back(b"")), "15: children are missing, or trees are left over, at byte 0")

    def test_the_planners_list(self) -> None:
        image = matigelo.image(b"[{mass+:1},{[a]+:1},{mass+:1,depth+:2}]")
        self.assertEqual([(l.raises, l.span) for l in matigelo.mass(image)], [("mass", (2, 6)), ("undecided", (0, 0))])
        self.assertEqual(matigelo.mass(matigelo.image(b"{}")), [])
        self.assertEqual(matigelo.mass(b""), matigelo.BadImage(15, 0))
        self.assertEqual(matigelo.listings(image, 7), ((21, 0, 2), [0] * 7))

    def test_null_with_length_0(self) -> None:
        numbers = (ctypes.c_uint64 * 5)()
        matigelo._LIBRARY.matigelo_read(0, None, 0, None, 0, ctypes.byref(numbers))
        self.assertEqual(list(numbers), [7, 0, 0, 0, 0])
        matigelo._LIBRARY.matigelo_read(0, b"1", 1, None, 0, ctypes.byref(numbers))
        self.assertEqual(list(numbers), [12, 0, 0, 0, 4])

    def test_numbers(self) -> None:
        self.assertEqual(matigelo.read(b"1 2"), matigelo.Refusal(5, 2, 3, 1))
        self.assertEqual(matigelo.read(b"1", setting=16), matigelo.Refusal(1, 0, 0, 0))
        self.assertEqual(matigelo.read(b" " * 65_001), matigelo.Refusal(2, 0, 0, 0))
        self.assertEqual(str(matigelo.read(b"")), "7: an expression is wanted, at bytes 0 to 0")

    def test_tree(self) -> None:
        tree = matigelo.read(b"{bays: [1, 2], level:: |||\n  low\n|||}")
        self.assertEqual(tree.name, "object")
        bays, level = tree.children
        self.assertEqual((level.parts["visibility"], level.parts["span"]), (1, (15, 20)))
        self.assertEqual([t.parts["text"] for t in level.children], ["level", "low\n"])
        self.assertEqual([t.name for t in bays.children[1].children], ["number", "number"])

    def test_deep(self) -> None:
        tree = matigelo.read(b"a" + b".b" * 32_499)
        self.assertEqual(max(depth for depth, _ in tree.walk()), 32_499)

    def test_a_larger_setting(self) -> None:
        self.assertIsInstance(matigelo.read(b"a?.b"), matigelo.Refusal)
        self.assertTrue(matigelo.read(b"a?.b", matigelo.EXP_NULL_COAELSE).parts["null_safe"])


def load_tests(_loader: object, tests: unittest.TestSuite, _pattern: object) -> unittest.TestSuite:
    tests.addTests(doctest.DocTestSuite(matigelo))
    return tests


if __name__ == "__main__":
    unittest.main()
