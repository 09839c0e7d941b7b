"""Holds the command and the program over simdjson to the one by hand: their bytes and their statuses on
crooked lines, on lines with changed bytes, and on small inputs of the table.
"""
import itertools
import random
import subprocess
import sys

import cases
import corpus
import tools

# What the programs are given: by all cases, and by those that are held to faulty lines as well.
ASKED = [case.words() for case in cases.CASES]
OFTEN = [case.words() for case in cases.CASES if case.name in ("all", "short", "values", "grep")]
NUMBERS = ["0", "-0", "-1", "1e2", "1.0", "-0.0", "-", "01", "18446744073709551615", "18446744073709551616",
           "-9223372036854775808", "-9223372036854775809", "1" * 40]
WORDS = ["true", "tru", "null", "nul", "nulll", "", " ", "\f1", "\ufeff1"]
TEXTS = ['"-0"', '"a-0 "', '":-0,"', '"\\"-0"', '"\\u0000\\u001f\\b\\f\\n\\r\\t\\/\\\\\\""',
         '"\u007f\u0080\u00e9\u65e5\U0001F600"', '"\\ud83d\\ude00"', '"\\ud800"', '"\\udc00"',
         '"\\ud800\\ud800"', '"\\u00e9"', '"\\x"', '"a\tb"', '"' + "x" * 100 + "'" + "y" * 40 + '"', '"',
         '"error 123"', '"xtimeout 000 "', '"refused 12"', '"error  123"', '" 123"', '"error 12é"']
LISTS = ["[]", '[1,[2,{"id":3}]]', "[1,]", "[,1]", "[1 2]", "[", "]", "1 1", "[" * 127 + "]" * 127,
         "[" * 128 + "]" * 128, "[" * 126 + '{"id":1}' + "]" * 126, "[" * 127 + '{"id":1}' + "]" * 127]
OBJECTS = ["{}", '{"id":{"id":[{"id":1}]}}', '{"a":1,}', '{"a"}', "{1:2}", "{}{}", "}",
           '{"b":1,"a":2,"b":3}', '{"id":[],"id":7}', '{"id":7,"id":[{"id":1}]}',
           '{"level":"\\u0065rror"}', '{"level":"errors"}', '{"level":{"level":"error"}}',
           '{"level":"info","level":"error"}', '{"level":"error","level":["error"]}',
           '{"bb":1,"b":2,"b\\u0000":3,"":4,"aaaaaaaab":5,"aaaaaaaaa":6,"aaaaaaaa":7,"\\u00e9":8}',
           '{"it\'s":1,"a\\\\b":2,"\\u0001":3,"\\n":[1]}',
           '{"id":' * 127 + "1" + "}" * 127, '{"id":' * 128 + "1" + "}" * 128,
           "{" + ",".join('"k%d":{"id":%d}' % (at * 7919 % 100, at) for at in range(60)) + "}"]
# Where such a value stands in a line: somewhere in what a query of the table walks.
AROUND = ["%s", ' {"id" : %s , "level":"error","user":{"id":%s}}\r',
          '{"items":[{"id":1,"price":5001,"name":%s,"recalled":null},'
          '{"sku":"AB-1232","qty":%s,"price":%s,"name":1}]}',
          '{"items":{"z":{"price":9223372036854775808,"name":%s},'
          '"a":{"recalled":%s,"id":2,"sku":%s,"qty":1}},"trace":{"spans":[0,{"attrs":{"host":%s}}]}}',
          '[{"v":990001,"k":%s},{"v":%s,"k":1},%s]', '{"paragraphs":[%s,"a error 123 b",%s]}',
          '{"paragraphs":{"b":"refused 123","a":%s}}']
NOT_UTF_8 = [b'"\xff"', b'"\xc0\x80"', b'"\xed\xa0\x80"', b'"\xf4\x90\x80\x80"', b"\x00", b"1\x00",
             b'"\xe2\x82"', b"\xef\xbb\xbf1"]
MARKS = b'"\\{}[],: -0159.eEtfnu\'\n\r\t\x00\x1f\xff\xc3\xa9'
# A document whose line is printed in the form of lines.
ERROR = b'{"level":"error"}'


class Holding:
    """What was tried so far, and how many answers were not those of the program by hand."""

    def __init__(self, paths):
        self.paths = paths
        self.tried = self.wrong = 0

    def answer(self, name, workers, asked, data):
        done = subprocess.run([self.paths[name], "--workers", str(workers), *asked], input=data,
                              stdout=subprocess.PIPE, stderr=subprocess.DEVNULL)
        return done.returncode, done.stdout

    def hold(self, asked, data, what):
        wanted = self.answer("by_hand", 1, asked, data)
        without = cases.WHOLE_ALONE if "--decimals" in asked else ()
        for name, workers in itertools.product([name for name in self.paths if name not in without], (1, 4)):
            got = self.answer(name, workers, asked, data)
            self.tried += 1
            if got != wanted:
                self.wrong += 1
                print("bench/check: %s with %d workers: status %d in place of %d, or other bytes: %s on %s"
                      % (name, workers, got[0], wanted[0], " ".join(asked), what), file=sys.stderr)

    def is_document(self, line):
        return self.answer("by_hand", 1, ["$"], line + b"\n")[0] == 0


def crooked_lines():
    values = NUMBERS + WORDS + TEXTS + LISTS + OBJECTS
    return [around.replace("%s", value).encode() for around, value in itertools.product(AROUND, values)]


def changed(draw, documents):
    """A few documents, in which up to three bytes are changed, put in or taken out."""
    data = bytearray(b"\n".join(draw.choice(documents) for _ in range(6)) + b"\n")
    for _ in range(draw.randrange(1, 4)):
        at = draw.randrange(len(data))
        how = draw.randrange(3)
        data[at:at + (how != 1)] = bytes([draw.choice(MARKS)]) if how != 2 else b""
    return bytes(data)


def hold_documents(holding, documents):
    together = b"\n".join([*documents, ERROR])
    for asked in ASKED:
        holding.hold(asked, together, "the documents")
        holding.hold(asked, b"\n\n \t\r\n" + (together + b"\n") * 20, "the documents twenty times")
        holding.hold(asked, b"", "nothing")


def hold_faulty(holding, lines):
    for line in lines:
        for asked in OFTEN:
            holding.hold(asked, ERROR + b"\n\n" + line + b"\n[2]\n", line[:80])
    for value in NOT_UTF_8:
        for asked in OFTEN:
            holding.hold(asked, ERROR + b"\n[" + value + b"]\n[1]", value)


def hold_drawn(holding, documents, rounds):
    draw = random.Random(1)
    short = [line for line in documents if len(line) < 400]
    for turn in range(rounds):
        data = changed(draw, short)
        for asked in OFTEN:
            holding.hold(asked, data, "changed bytes, turn %d" % turn)
    many = b"".join(draw.choice(documents) + b"\n" for _ in range(rounds * 30))
    for asked in OFTEN:
        holding.hold(asked, many, "many documents")
        holding.hold(asked, many + b"-0\n" + many, "a faulty line amid many")


def words():
    parser = tools.Words(prog="bench/check", description=__doc__)
    parser.add_argument("--rounds", type=int, default=600, help="how many inputs with changed bytes (600)")
    arguments = parser.parse_args()
    if arguments.rounds < 0:
        parser.error("--rounds wants a number")
    return arguments


def main():
    arguments = words()
    paths = {"jp": tools.jp()}
    paths.update(tools.build())
    holding = Holding(paths)
    lines = crooked_lines()
    documents = [line for line in lines if holding.is_document(line)]
    hold_documents(holding, documents)
    hold_faulty(holding, [line for line in lines if line not in documents])
    hold_drawn(holding, documents, arguments.rounds)
    for case in cases.CASES:
        with open(corpus.made_in(tools.ROOM, case.kind, 0.5), "rb") as data:
            holding.hold(case.words(), data.read(), "the case " + case.name)
    print("%d crooked lines, %d of them documents; %d runs of %s, %d unlike the program by hand"
          % (len(lines), len(documents), holding.tried, ", ".join(paths), holding.wrong))
    return 1 if holding.wrong else 0


if __name__ == "__main__":
    try:
        sys.exit(main())
    except OSError as fault:
        tools.refuse(str(fault))
