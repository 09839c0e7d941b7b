"""What no row says: the values that Python is given, errors, data of other types, threads."""

import doctest
import threading
import unittest
from decimal import Decimal

import jsonpath_lines
from jsonpath_lines import InputError, Node, Query, QueryError


class Values(unittest.TestCase):
    def test_values_of_all_kinds(self):
        text = ('[null, true, false, 1, 18446744073709551615, -9223372036854775808, 0.10, 1e3, '
                '"a\\u0000\\n", [], {}]')
        wanted = [None, True, False, 1, 2**64 - 1, -(2**63), Decimal("0.10"), Decimal("1e3"), "a\0\n", [], {}]
        found = Query("$[*]").values(text)
        self.assertEqual(found, wanted)
        self.assertEqual([type(it) for it in found], [type(it) for it in wanted])
        self.assertEqual(str(found[6]), "0.10")

    def test_many_digits(self):
        digits = "9" * 1000
        self.assertEqual(Query("$").values(digits), [int(digits)])
        self.assertEqual(Query("$").values("0." + "9" * 999), [Decimal("0." + "9" * 999)])

    def test_nodes(self):
        text = '{\n  "b": [{"a": 1}, {"a": "x"}],\n  "a": {"a": null}\n}'
        wanted = [Node("$['a']", {"a": None}), Node("$['a']['a']", None), Node("$['b'][0]['a']", 1),
                  Node("$['b'][1]['a']", "x")]
        self.assertEqual(sorted(Query("$..a").find(text)), sorted(wanted, key=lambda it: it.path))

    def test_a_path_is_a_query(self):
        text = '{"it\'s": {"\\n\\t\\"": [1, 2]}, "é": 3}'
        for node in Query("$..*").find(text):
            self.assertEqual(Query(node.path).find(text), [node])

    def test_duplicates_and_order(self):
        self.assertEqual(Query("$[1,0,1]").values("[5,6]"), [6, 5, 6])

    def test_texts_one_after_another(self):
        self.assertEqual([(it.number, it.value) for it in Query("$.a").each('{"a":1}{"b":2}\n{"a":\n3}')],
                         [(1, 1), (3, 3)])

    def test_nothing(self):
        self.assertEqual(Query("$.a").find("{}"), [])
        self.assertEqual(Query("$.a").find(""), [])
        self.assertIs(Query("$.a").first("{}"), None)
        self.assertEqual(Query("$.a").first("{}", 7), 7)
        self.assertFalse(Query("$.a").exists("{}"))
        self.assertTrue(Query("$.a").exists('{"a":null}'))


class Data(unittest.TestCase):
    def test_other_types(self):
        for data in ('{"a":"é"}', '{"a":"é"}'.encode(), bytearray('{"a":"é"}'.encode()),
                     memoryview('{"a":"é"}'.encode())):
            self.assertEqual(Query("$.a").values(data), ["é"])

    def test_an_answer_that_is_longer_than_its_input(self):
        text = "[" + ",".join(["1"] * 1000) + "]"
        self.assertEqual(len(Query("$[*,*,*]").find(text)), 3000)

    def test_lines(self):
        data = b'{"a":1}\n\n{"a":[2]}\n'
        self.assertEqual(Query("$.a").lines(data), b"1\t$['a']\t1\n3\t$['a']\t[2]\n")
        self.assertEqual(Query("$.a").lines(data, "values", first=10), b"1\n[2]\n")
        self.assertEqual(Query("$.a", where="@.a==1").lines(data, "lines"), b'{"a":1}\n')
        self.assertEqual(Query("$.a").answer(b'{"a":1}\n{\n', keep_going=True).faulty, 1)


class Errors(unittest.TestCase):
    def test_a_query_that_is_none(self):
        with self.assertRaises(QueryError) as caught:
            Query("$.a[")
        self.assertEqual((caught.exception.fault, caught.exception.place), ("syntax", 4))
        self.assertFalse(caught.exception.is_filter)
        self.assertEqual(caught.exception.explanation.split("\n")[:2], ["$.a[", "    ^"])
        with self.assertRaises(QueryError) as caught:
            Query(".a")
        self.assertEqual(caught.exception.cure, "a query begins with $: $.a")
        self.assertEqual(str(caught.exception),
                         "query: syntax\n.a\n^\nexpected $\na query begins with $: $.a")
        with self.assertRaises(QueryError) as caught:
            Query("$.a", where="@.a==")
        self.assertTrue(caught.exception.is_filter)
        self.assertIsNone(caught.exception.place)

    def test_input_that_is_none(self):
        with self.assertRaises(InputError) as caught:
            Query("$.a").lines(b'{"a":1}\n{"a"')
        error = caught.exception
        self.assertEqual((error.number, error.fault, error.output), (2, "unreadable", b"1\t$['a']\t1\n"))
        with self.assertRaises(InputError) as caught:
            Query("$.a", decimals=False).find("0.5")
        self.assertEqual(caught.exception.fault, "not whole")

    def test_options_out_of_range(self):
        for first in (0, 2**32, -1):
            with self.assertRaises(ValueError):
                Query("$").lines(b"1", first=first)
        with self.assertRaises(ValueError):
            Query("$").lines(b"1", "nodez")
        with self.assertRaises(OverflowError):
            Query("$").lines(b"1\n2\n", first=2**32 - 1)


class Threads(unittest.TestCase):
    def test_one_query_by_many_threads(self):
        query, wrong = Query("$..a"), []

        def ask(at):
            for turn in range(200):
                if query.values('{"a":%d,"b":{"a":%d}}' % (at, turn)) != [at, turn]:
                    wrong.append((at, turn))

        threads = [threading.Thread(target=ask, args=(at,)) for at in range(8)]
        for it in threads:
            it.start()
        for it in threads:
            it.join()
        self.assertEqual(wrong, [])


class Documents(unittest.TestCase):
    def test_examples(self):
        failed, count = doctest.testmod(jsonpath_lines)
        self.assertEqual((failed, count > 0), (0, True))


if __name__ == "__main__":
    unittest.main()
