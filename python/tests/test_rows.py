"""The rows of scripts/rows that ask the command what the library answers too: the same bytes, statuses and
faults by Python."""

import unittest
from importlib.machinery import SourceFileLoader
from importlib.util import module_from_spec, spec_from_loader
from pathlib import Path

from jsonpath_lines import InputError, Query, QueryError
from jsonpath_lines._library import FAULTY_LINE, FORMS, LINE_FAULTS, OF_FILTER, QUERY_FAULTS

TOP = Path(__file__).resolve().parents[2]


def rows():
    loader = SourceFileLoader("library", str(TOP / "scripts/library"))
    library = module_from_spec(spec_from_loader("library", loader))
    loader.exec_module(library)
    return library.rows()


class Rows(unittest.TestCase):
    def test_every_row(self):
        count = 0
        for row in rows():
            count += 1
            with self.subTest(query=row.query, options=row.options, text=row.text[:200]):
                if row.tells is not None:
                    self.assertEqual(self.told(row), self.wanted(row))
                if row.lines is not None or row.ends is not None:
                    self.explained(row)
        self.assertGreater(count, 1000)

    def wanted(self, row):
        """What the row wants: the answer, or the fault."""
        status = row.tells.get("status", 0)
        if status == FAULTY_LINE:
            return "faulty", row.tells["line"], LINE_FAULTS[row.tells["fault"]], row.output
        if status:
            return "refused", QUERY_FAULTS[status % OF_FILTER], status > OF_FILTER
        return ("accepted",) if row.is_check else ("answer", row.output, row.tells.get("faulty", 0))

    def explained(self, row):
        """What is shown of a refused query."""
        with self.assertRaises(QueryError) as caught:
            Query(row.query.decode(), decimals=bool(row.options.get("decimals")))
        shown = caught.exception.explanation
        if row.lines is not None:
            self.assertEqual(shown, row.lines.decode())
        elif row.ends.startswith(b"\n"):
            self.assertTrue(f"\n{shown}".endswith(row.ends.decode()), shown)
            self.assertEqual(caught.exception.cure or shown.split("\n")[2], row.ends.decode().split("\n")[-2])

    def told(self, row):
        """The same by Python."""
        options = dict(row.options)
        where = row.filter.decode() if options.pop("has_filter", 0) else None
        decimals, first = bool(options.pop("decimals", 0)), options.pop("first", 1)
        output = FORMS[options.pop("form", 0)]
        try:
            query = Query(row.query.decode(), where, decimals)
            if row.is_check:
                return ("accepted",)
            options = {name: bool(value) for name, value in options.items()}
            return ("answer", *query.answer(row.text, output, first=first, **options))
        except QueryError as error:
            return "refused", error.fault, error.is_filter
        except InputError as error:
            return "faulty", error.number, error.fault, error.output


if __name__ == "__main__":
    unittest.main()
