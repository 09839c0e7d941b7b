"""The inputs: JSON Lines of which the same call gives the same bytes. Numbers are whole but in `sales`.

logs     nested log events, some 400 bytes a line
orders   orders of 5 to 50 items (names, prices in cents, tags), some 3,800 bytes a line
strings  text for patterns, some 1,800 bytes a line, some of it not ASCII, some escaped
short    some 33 bytes a line, where a line costs more than its bytes
wide     few lines, each an array of 200,000 small objects, some 12.6 MB a line
sales    sales of 2 to 20 items, with prices, weights and durations as a program of doubles prints them, some
         700 bytes a line

Only random() of random.Random is used, whose values for a given start no version of Python changes. Members
stand in the order that a program would write them in, not in that of their names.
"""
import os
import random

GIVEN = ("ada alan anna bela boris carl clara dora edgar emma felix greta hans ida ivan jana karl lena max "
         "nina olga paul rosa sven tina uwe vera willi yuri zoe").split()
FAMILY = ("adler bauer chen diaz evans fischer garcia huber ito jones klein lopez meyer novak otto petrov "
          "quinn rossi schmidt tanaka ueda vogel weber xu young zimmer").split()
SERVICES = "checkout catalog search auth billing mailer gateway reports".split()
METHODS = ["GET", "GET", "GET", "POST", "PUT", "DELETE"]
PATHS = ["/api/v2/orders/%d", "/api/v2/users/%d/profile", "/static/img/%d.png", "/api/v1/search?q=%d",
         "/health/%d"]
SPANS = "db.query cache.get http.call render queue.push auth.check".split()
LEVELS = ["debug", "info", "info", "info", "warn", "error"]
STATUSES = [200, 200, 200, 204, 301, 404, 500]
ROLES = ['"admin","ops"', '"viewer"', "", '"editor"']
PLANS = ["free", "pro", "team"]
CITIES = ["Berlin", "Hamburg", "München", "Köln", "Wien", "Zürich", "Łódź", "Praha", "Malmö", "Lyon",
          "Porto", "大阪"]
COUNTRIES = ["DE", "AT", "CH", "PL", "CZ", "SE", "FR", "PT", "JP"]
ADJECTIVES = ("small large red blue green solid folding steel wooden quiet bright heavy light cordless "
              "classic").split()
NOUNS = ("lamp chair desk kettle bicycle drill jacket boots tent bottle camera speaker notebook backpack "
         "stove").split()
TAGS = "sale new garden kitchen office outdoor kids sport travel music repair gift winter summer".split()
WORDS = ("the of and to in that is was for it with as his on be at by had not are but from or have an they "
         "which one you were all her she there would their we him been has when who will no more if out so "
         "up said what its about than into them can only other time new some could these two may first "
         "then do any like my now over such our man me even most made after also did many off before must "
         "well back through years where much your way down should because long each just state those "
         "people too mr how little good world make very year still see own work men day get here old "
         "between both server client packet session cluster replica index buffer thread signal driver "
         "kernel module worker ledger").split()
RARE = ["naïve", "café", "Straße", "façade", "jalapeño", "東京", "Москва", "smörgåsbord", "—", "😀"]
ESCAPED = ['\\"quoted\\"', "back\\\\slash", "tab\\tstop", "line\\nbreak", "caf\\u00e9", "\\ud83d\\ude00"]
TROUBLE = ["error", "timeout", "refused"]


class Dice:
    """Draws by random() alone."""

    def __init__(self, start):
        self.draw = random.Random(start).random

    def below(self, count):
        return int(self.draw() * count)

    def pick(self, choices):
        return choices[int(self.draw() * len(choices))]

    def hex(self, digits):
        return "%0*x" % (digits, int(self.draw() * (1 << (4 * digits))))


def span(dice, index):
    return ('{"id":%d,"name":"%s","ms":%d,"attrs":{"host":"db-%d","rows":%d}}'
            % (index + 1, dice.pick(SPANS), dice.below(90), dice.below(12), dice.below(5000)))


def log(dice, index):
    spans = ",".join([span(dice, at) for at in range(1 + dice.below(2))])
    level = dice.pick(LEVELS)
    status = dice.pick(STATUSES)
    roles = ROLES[dice.below(4)]
    return ('{"ts":%d,"level":"%s","service":"%s","host":"web-%03d.eu",'
            '"user":{"id":%d,"name":"%s.%s","plan":"%s","roles":[%s]},'
            '"request":{"method":"%s","path":"%s","status":%d,"ms":%d},'
            '"trace":{"id":"%s","spans":[%s]},"ok":%s,"error":%s}'
            % (1700000000000 + index * 37 + dice.below(30), level, dice.pick(SERVICES), dice.below(400),
               1000 + dice.below(900000), dice.pick(GIVEN), dice.pick(FAMILY), dice.pick(PLANS), roles,
               dice.pick(METHODS), dice.pick(PATHS) % dice.below(100000), status, dice.below(2000),
               dice.hex(12), spans, "true" if status < 400 else "false",
               "null" if status < 400 else '"upstream said %d"' % status))


def letter(dice):
    return chr(65 + dice.below(26))


def item(dice, price, count):
    tags = ",".join(['"%s"' % dice.pick(TAGS) for _ in range(dice.below(4))])
    return ('{"id":%d,"sku":"%s%s-%04d","name":"%s %s","price":%d,"qty":%d,"tags":[%s],'
            '"stock":{"shelf":%d,"bin":"%s%d"}}'
            % (100000 + dice.below(900000), letter(dice), letter(dice), dice.below(10000),
               dice.pick(ADJECTIVES), dice.pick(NOUNS), price, count, tags, dice.below(300), letter(dice),
               dice.below(40)))


def order(dice, index):
    items = []
    total = 0
    for _ in range(5 + dice.below(46)):
        price = 99 + dice.below(10000)
        count = 1 + dice.below(5)
        total += price * count
        items.append(item(dice, price, count))
    return ('{"id":%d,"customer":{"id":%d,"name":"%s %s",'
            '"address":{"city":"%s","zip":"%05d","country":"%s"}},"currency":"EUR",'
            '"items":[%s],"total":%d,"paid":%s,"note":%s}'
            % (5000000 + index, 1000 + dice.below(200000), dice.pick(GIVEN).title(),
               dice.pick(FAMILY).title(), dice.pick(CITIES), dice.below(99999), dice.pick(COUNTRIES),
               ",".join(items), total, "true" if dice.below(3) else "false",
               "null" if dice.below(4) else '"leave at the door, please"'))


def paragraph(dice):
    words = [dice.pick(WORDS) for _ in range(30 + dice.below(70))]
    for odd in (RARE, ESCAPED, TROUBLE):
        for _ in range(dice.below(3)):
            words[dice.below(len(words))] = dice.pick(odd)
    if dice.below(5) == 0:
        words[dice.below(len(words))] = "%s %03d" % (dice.pick(TROUBLE), dice.below(1000))
    return '"%s."' % " ".join(words)


def text(dice, index):
    paragraphs = ",".join([paragraph(dice) for _ in range(3 + dice.below(5))])
    return ('{"id":%d,"author":"%s %s","title":"%s","lang":"%s","paragraphs":[%s]}'
            % (index + 1, dice.pick(GIVEN).title(), dice.pick(FAMILY).title(),
               " ".join([dice.pick(WORDS) for _ in range(4 + dice.below(6))]), dice.pick(["en", "de", "fr"]),
               paragraphs))


def short(dice, index):
    return '{"id":%d,"k":"%s","n":%d}' % (index, dice.pick(NOUNS), dice.below(100))


def wide(dice, index, items):
    parts = []
    for at in range(items):
        parts.append('{"id":%d,"k":"%s","v":%d,"ok":%s,"at":[%d,%d]}'
                     % (index * items + at, dice.hex(6), dice.below(1000000),
                        "true" if dice.below(2) else "false", dice.below(1000), dice.below(1000)))
    return "[%s]" % ",".join(parts)


def decimal(count, digits):
    """A whole number divided by a power of ten, in the shortest text."""
    front, behind = divmod(count, 10 ** digits)
    behind = ("%0*d" % (digits, behind)).rstrip("0")
    return "%d.%s" % (front, behind) if behind else str(front)


def sold(dice):
    return ('{"sku":"%s%s-%04d","price":%s,"qty":%d,"weight":%s}'
            % (letter(dice), letter(dice), dice.below(10000), decimal(99 + dice.below(3000), 2),
               1 + dice.below(5), decimal(dice.below(90000), 3)))


def sale(dice, index):
    items = ",".join([sold(dice) for _ in range(2 + dice.below(19))])
    return ('{"id":%d,"at":%s,"duration":%s,"till":"%s","items":[%s],"tax":%s}'
            % (7000000 + index, decimal(1700000000000 + index * 37 + dice.below(30), 3),
               decimal(dice.below(2000000), 4), dice.pick(CITIES), items, dice.pick(["0.07", "0.19"])))


KINDS = ["logs", "orders", "strings", "wide", "short", "sales"]
MAKERS = {"logs": log, "orders": order, "strings": text, "short": short, "sales": sale}


def lines(kind, megabytes):
    """The lines, until so many megabytes (of 1,000,000 bytes) are reached, and one at least. For a trial on
    less than one megabyte an array of `wide` is shorter too."""
    dice = Dice(1000 + KINDS.index(kind))
    items = int(200000 * min(megabytes, 1))
    made = index = 0
    while made < megabytes * 1000000 or index == 0:
        line = wide(dice, index, items) if kind == "wide" else MAKERS[kind](dice, index)
        encoded = (line + "\n").encode()
        made += len(encoded)
        index += 1
        yield encoded


def made_in(folder, kind, megabytes):
    """The path of such an input in the folder, where it is made unless it is there."""
    path = os.path.join(folder, "%s-%g.jsonl" % (kind, megabytes))
    if not os.path.exists(path):
        fresh = "%s.%d" % (path, os.getpid())
        with open(fresh, "wb") as out:
            out.writelines(lines(kind, megabytes))
        os.rename(fresh, path)
    return path
