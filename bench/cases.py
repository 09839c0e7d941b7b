"""The seventeen cases. Twelve are in the form of nodes over whole numbers; the means of compare.py are over
these. Two are over numbers of every kind, by `--decimals`."""
import typing


class Case(typing.NamedTuple):
    """A name, an input of corpus.py, a query, the same as an expression of jq, the form of the answer, and
    whether numbers need not be whole."""

    name: str
    kind: str
    query: str
    expression: str
    form: str = "nodes"
    decimals: bool = False

    def words(self):
        """What the programs are given: the form of nodes, and whole numbers, are theirs without a word."""
        form = [] if self.form == "nodes" else ["--output", self.form]
        return [*form, *(["--decimals"] if self.decimals else []), self.query]


CASES = [
    Case("field", "logs", "$.user.id", ".user.id"),
    Case("short", "short", "$.id", ".id"),
    Case("deep", "logs", "$.trace.spans[1].attrs.host",
         ".trace.spans | select(length > 1) | .[1].attrs.host"),
    Case("all", "logs", "$..*", ".. | .[]?"),
    Case("values", "logs", "$..*", ".. | .[]?", "values"),
    Case("wildcard", "orders", "$.items[*].price", ".items[].price"),
    Case("prices", "orders", "$.items[*].price", ".items[].price", "values"),
    Case("descend", "orders", "$..id", '.. | select(type == "object" and has("id")) | .id'),
    Case("compare", "orders", "$.items[?@.price>5000].name", ".items[] | select(.price > 5000) | .name"),
    Case("match", "orders", "$.items[?match(@.sku,'[A-M][A-Z]-[0-9]{3}[02468]')].qty",
         '.items[] | select(.sku | test("^(?:[A-M][A-Z]-[0-9]{3}[02468])$")) | .qty'),
    Case("absent", "orders", "$.items[?@.recalled].id", '.items[] | select(has("recalled")) | .id'),
    Case("search", "strings", "$.paragraphs[?search(@,'(error|timeout|refused) [0-9]{3}')]",
         '.paragraphs[] | select(test("(error|timeout|refused) [0-9]{3}"))'),
    Case("wide", "wide", "$[*]", ".[]"),
    Case("sift", "wide", "$[?@.v>990000].k", ".[] | select(.v > 990000) | .k"),
    Case("grep", "logs", '$[?$.level=="error"]', 'select(.level == "error")', "lines"),
    Case("cheap", "sales", "$.items[?@.price<10]", ".items[] | select(.price < 10)", decimals=True),
    Case("duration", "sales", "$.duration", ".duration", decimals=True),
]

# The programs that read whole numbers alone, and have no word for others.
WHOLE_ALONE = {"over_simdjson"}

# The same lines as jp in the form of nodes, where names of members need no escape. The lines are counted by
# hand, since jq's input_line_number miscounts long ones, and gojq has none.
LINES_OF = """
def path_text: reduce .[] as $key ("$";
    . + if ($key | type) == "number" then "[\\($key)]" else "['\\($key)']" end);
foreach inputs as $document (0; . + 1; . as $number | $document | path(%s) as $path
    | "\\($number)\\t\\($path | path_text)\\t\\(getpath($path) | tojson)")
"""


def jq_program(expression):
    return LINES_OF % expression
