"""What hints need to know of a query: its words, its items, the columns at each, and what is wrong in one of them.

The program alone decides whether a query is refused and why. Here its words are read once more to say which name, which
kinds and where; what is not understood is left unsaid.
"""
import difflib
import re

WORDS = re.compile(rb"\s+|(?P<name>[A-Za-z_]\w*)|(?P<number>\d+(?:\.\d+)?)|(?P<text>'(?:[^'\r\n]|'')*')"
                   rb"|(?P<sign><>|<=|>=|[(),;|:=<>+*-])|(?P<bad>.)", re.S)
STEPS = ["where", "select", "union", "delay", "hop", "tumble", "duration", "extend", "session", "clip", "join", "anti", "group",
         "coalesce", "left", "top", "follow"]
KINDS = ["int", "bool", "text", "dec"]
RESERVED = """stream let where select union delay hop tumble duration extend session clip join anti group by on as and or not div
mod true false int bool text count sum min max dec coalesce left else avg top per follow within""".split()
AGGREGATES = ["count", "sum", "min", "max", "avg"]
TWO_SIDED = ["union", "clip", "join", "anti", "left", "follow"]
SNAPSHOTS = ["group", "join", "anti", "left", "top"]


class Word:
    """A word of a query: its text, what it is, and its bytes."""

    def __init__(self, found):
        self.text, self.what = found.group().decode(errors="replace"), found.lastgroup
        self.start, self.end = found.span()


class Wrong(Exception):
    """What is wrong, in a sentence, and the words it is about."""

    def __init__(self, sentence, words=()):
        super().__init__(sentence)
        self.sentence, self.words = sentence, list(words)


class Item:
    """A stream, a let with its first name, a first name, or a step: its words, and what stands before it."""

    def __init__(self, what, words, before=None):
        self.what, self.words, self.before = what, words, before


def words_of(text):
    return [Word(found) for found in WORDS.finditer(text) if found.lastgroup]


def parted(words, sign):
    """The words between the signs of that kind."""
    parts = [[]]
    for word in words:
        if word.what == "sign" and word.text == sign:
            parts.append([])
        else:
            parts[-1].append(word)
    return parts


def items_of(text):
    """The items of a query that was read to its end, in the order in which notes count them."""
    items = []
    for statement in parted(words_of(text), ";"):
        if statement and statement[0].text == "stream":
            items.append(Item("stream", statement))
            continue
        for number, part in enumerate(parted(statement, "|")):
            what = "step" if number else "let" if part and part[0].text == "let" else "first"
            items.append(Item(what, part, items[-1] if number else None))
    return items


def nearest(name, names):
    """The names, the nearest one first."""
    return sorted(names, key=lambda it: -difflib.SequenceMatcher(None, name.lower(), it.lower()).ratio())


def did_you_mean(name, names):
    found = difflib.get_close_matches(name.lower(), [it.lower() for it in names], 1, 0.55)
    return f"; did you mean {next(it for it in names if it.lower() == found[0])}?" if found else ""


def unknown(what, word, names):
    """No name of that kind is the word; the names that are there, the nearest one first."""
    told = f"no {what} is called {word.text}{did_you_mean(word.text, names)}"
    if not names:
        return Wrong(f"{told}, and there is none here", [word])
    those = "Those" if told.endswith("?") else "; those"
    return Wrong(f"{told}{' ' if those == 'Those' else ''}{those} here are {', '.join(nearest(word.text, names))}", [word])


class Expr:
    """Reads an expression over columns, and finds its kind, or what is wrong with it."""

    def __init__(self, words, columns):
        self.words, self.columns, self.at = words, columns, 0

    def next(self, *texts):
        if self.at < len(self.words) and self.words[self.at].text in texts and self.words[self.at].what != "text":
            self.at += 1
            return self.words[self.at - 1]
        return None

    def told(self, kind, first, last=None):
        spelled = self.words[first:last if last is not None else self.at]
        return f"{' '.join(word.text for word in spelled)} is {kind}"

    def needs(self, is_well, sentence, first):
        if not is_well:
            raise Wrong(sentence, self.words[first:self.at])

    def either(self, part, *signs, kind="bool"):
        first, found = self.at, part()
        while True:
            middle = self.at
            sign = self.next(*signs)
            if not sign:
                return found
            self.needs(found == kind, f"{self.told(found, first, middle)}, and {sign.text} stands between two {kind}s", first)
            behind = self.at
            right = part()
            self.needs(right == kind, f"{self.told(right, behind)}, and {sign.text} stands between two {kind}s", behind)

    def whole(self):
        return self.either(lambda: self.either(self.negated, "and"), "or")

    def negated(self):
        sign = self.next("not")
        if not sign:
            return self.compared()
        first = self.at
        kind = self.negated()
        self.needs(kind == "bool", f"{self.told(kind, first)}, and not stands before a bool", first)
        return kind

    def compared(self):
        first, left = self.at, self.sum()
        middle = self.at
        sign = self.next("=", "<>", "<", "<=", ">", ">=")
        if not sign:
            return left
        behind = self.at
        right = self.sum()
        both = f"{self.told(left, first, middle)} and {self.told(right, behind)}"
        self.needs(left == right, f"{both}; {sign.text} compares two of one kind", first)
        return "bool"

    def sum(self):
        return self.reckoned(self.product, "+", "-")

    def product(self):
        return self.reckoned(self.signed, "*", "div", "mod")

    def reckoned(self, part, *signs):
        first, found = self.at, part()
        while True:
            middle = self.at
            sign = self.next(*signs)
            if not sign:
                return found
            behind = self.at
            right = part()
            both = f"{self.told(found, first, middle)} and {self.told(right, behind)}; {sign.text} takes "
            if sign.text in ("div", "mod"):
                self.needs(found == "int", f"{self.told(found, first, middle)}, and {sign.text} takes an int", first)
            elif sign.text == "*":
                has_int = is_number(found) and is_number(right) and "int" in (found, right)
                self.needs(has_int, both + "two ints, or an int and a decimal", first)
                found = right if found == "int" else found
            else:
                self.needs(is_number(found) and found == right, both + "two ints, or two decimals of as many places", first)

    def signed(self):
        sign = self.next("-")
        if not sign:
            return self.atom()
        first = self.at
        kind = self.signed()
        self.needs(is_number(kind), f"{self.told(kind, first)}, and - stands before a number", first)
        return kind

    def atom(self):
        word = self.words[self.at]
        self.at += 1
        if word.text == "(":
            kind = self.whole()
            self.at += 1
            return kind
        if word.what == "number":
            return f"dec({len(word.text.partition('.')[2])})" if "." in word.text else "int"
        if word.what == "text":
            return "text"
        return "bool" if word.text in ("true", "false") else kind_of(word, self.columns)


def is_number(kind):
    return kind == "int" or kind.startswith("dec")


def kind_of(word, columns):
    for name, kind in columns:
        if name == word.text:
            return kind
    raise unknown("column", word, [name for name, _ in columns])


def listed(columns):
    return ", ".join(f"{name} {kind}" for name, kind in columns)


def declared(words):
    """The columns that a stream declares."""
    columns = []
    for part in parted(words[3:-1], ","):
        kind = f"dec({part[3].text})" if part[1].text == "dec" else part[1].text
        columns.append((part[0].text, kind))
    return columns


def once(names, what):
    """Finds a name that stands twice."""
    seen = set()
    for name, word in names:
        if name in seen:
            raise Wrong(f"two {what} are called {name}", [word] if word else [])
        seen.add(name)


def names_behind(words, sign):
    """The names of a key behind `on` or `by`, up to the next word that is no name of it."""
    at = next((i for i, word in enumerate(words) if word.text == sign), None)
    if at is None:
        return []
    found = []
    for word in words[at + 1:]:
        if word.text == ",":
            continue
        if word.what != "name" or word.text in ("else", "within", "by"):
            break
        found.append(word)
    return found


def sides(words, columns, pipes):
    """Of a step with two sides the columns of the right one, and its key, which both sides have with the same kinds."""
    if words[1].text not in pipes:
        raise unknown("stream or let", words[1], list(pipes))
    right, key = pipes[words[1].text], names_behind(words, "on")
    for word in key:
        left_kind = kind_of(word, columns)
        try:
            right_kind = kind_of(word, right)
        except Wrong as wrong:
            raise Wrong(f"{words[1].text} has no column {word.text}: its columns are {listed(right)}", wrong.words) from None
        if left_kind != right_kind:
            raise Wrong(f"{word.text} is {left_kind} on the left and {right_kind} in {words[1].text}", [word])
    return right, [word.text for word in key]


def grouped(words, columns):
    key = names_behind(words, "by")
    found = [(word.text, kind_of(word, columns)) for word in key]
    at = next(i for i, word in enumerate(words) if word.text == ":")
    named = [(word.text, word) for word in key]
    for part in parted(words[at + 1:], ","):
        kind = "int"
        if part[0].text != "count":
            kind = kind_of(part[1], columns)
            wanted = "an int" if part[0].text == "avg" else "a number"
            if not is_number(kind) or part[0].text == "avg" and kind != "int":
                raise Wrong(f"{part[1].text} is {kind}, and {part[0].text} takes {wanted}", [part[1]])
        found.append((part[-1].text, kind))
        named.append((part[-1].text, part[-1]))
    once(named, "columns")
    return found


def selected(words, columns):
    found, named = [], []
    for part in split_items(words[1:]):
        has_name = len(part) > 2 and part[-2].text == "as"
        found.append((part[-1].text, Expr(part[:-2] if has_name else part, columns).whole()))
        named.append((part[-1].text, part[-1]))
    once(named, "columns")
    return found


def split_items(words):
    """The items of a select; a comma parts them, and none stands within one."""
    return parted(words, ",")


def joined(words, columns, pipes):
    right, key = sides(words, columns, pipes)
    more = [(name, kind) for name, kind in right if name not in key]
    at = next((i for i, word in enumerate(words) if word.text == "else"), None)
    if words[0].text == "left":
        given = [] if at is None else [Expr(part, []).whole() for part in parted(words[at + 1:], ",")]
        wanted = [kind for _, kind in more]
        if given != wanted:
            values = f"behind else stand values of the kinds {', '.join(given) or 'none'}"
            columns_there = f"{words[1].text} has outside the key {listed(more) or 'no column'}"
            raise Wrong(f"{values}, and {columns_there}", words if at is None else words[at:])
    taken = {name for name, _ in columns}
    for name, _ in more:
        if name in taken:
            raise Wrong(f"both sides have a column {name} outside the key: rename one by a select", [words[1]])
    return columns + more


def stepped(words, columns, pipes):
    """The columns behind a step."""
    step = words[0].text
    if step == "where":
        kind = Expr(words[1:], columns).whole()
        if kind != "bool":
            raise Wrong(f"{' '.join(word.text for word in words[1:])} is {kind}, and where takes a test", words[1:])
    elif step == "select":
        return selected(words, columns)
    elif step == "group":
        return grouped(words, columns)
    elif step in ("join", "left", "follow"):
        return joined(words, columns, pipes)
    elif step == "union":
        right, _ = sides(words, columns, pipes)
        if [kind for _, kind in right] != [kind for _, kind in columns]:
            raise Wrong(f"the left side has {listed(columns)}, and {words[1].text} has {listed(right)}", [words[1]])
    elif step in TWO_SIDED:
        sides(words, columns, pipes)
    else:
        for word in names_behind(words, "by") + names_behind(words, "per"):
            kind_of(word, columns)
    return columns


class Planned:
    """The items of a query up to one of them: the pipes that are named there, and the columns before it."""

    def __init__(self, text):
        self.items, self.pipes, self.columns, self.open_let = items_of(text), {}, [], None

    def goes_on(self, item):
        """Takes an item in, or raises what is wrong with it."""
        words = item.words
        if item.what == "stream":
            columns = declared(words)
            once([(part[0].text, part[0]) for part in parted(words[3:-1], ",")], "columns")
            self.named(words[1], columns)
        elif item.what == "step":
            self.columns = stepped(words, self.columns, self.pipes)
            if self.open_let is not None:
                self.pipes[self.open_let] = self.columns
        else:
            first = words[3] if item.what == "let" else words[0]
            if first.text not in self.pipes:
                raise unknown("stream or let", first, list(self.pipes))
            self.columns = self.pipes[first.text]
            self.open_let = words[1].text if item.what == "let" else None
            if item.what == "let":
                self.named(words[1], self.columns)

    def named(self, word, columns):
        if word.text in self.pipes:
            raise Wrong(f"two streams or lets are called {word.text}", [word])
        self.pipes[word.text] = columns

    def upto(self, number):
        """What is wrong in the item of that number, or None where nothing was found."""
        for item in self.items[:number]:
            self.goes_on(item)
        try:
            self.goes_on(self.items[number])
        except Wrong as wrong:
            return wrong
        return None


def streams_of(text):
    """The columns of each stream that a query declares."""
    return {item.words[1].text: declared(item.words) for item in items_of(text) if item.what == "stream"}


def of_sql(before, word, after):
    """What to write in place of a word of SQL or of another language, given the words beside it; or None."""
    if word == "!":
        return "unequal is <>" if after == "=" else "not stands before a test"
    if before == word == "=":
        return "equal is ="
    if before in AGGREGATES and word == "(":
        return "a count stands alone, and sum, min, max and avg before a column: count as n, sum v as total"
    if before == "select" and word == "*":
        return "without a select all columns are kept"
    return None


def wrong_word(text, place):
    """What is wrong with the word at the place where no query goes on, or None."""
    words = words_of(text)
    at = next((i for i, word in enumerate(words) if word.start == place), None)
    if at is None or not at:
        return None
    word, before = words[at], words[at - 1].text
    told = of_sql(before, word.text, words[at + 1].text if at + 1 < len(words) else "")
    if told:
        return Wrong(told, [word])
    if word.what == "text" or word.what == "bad":
        told = "a text stands between single quotes on one line, and a quote in it is doubled"
        return Wrong(told, [word]) if word.text[0] in "'\"" else None
    if word.what != "name":
        return None
    if before == "|":
        return unknown("step", word, STEPS)
    if word.text in RESERVED and before in ("stream", "let", "as", "(", ","):
        return Wrong(f"{word.text} is a word of the language: take another name", [word])
    depth = sum({"(": 1, ")": -1}.get(it.text, 0) for it in words[:at])
    start = max([i for i, it in enumerate(words[:at]) if it.text == ";"], default=-1)
    if words[start + 1].text == "stream" and depth and before not in "(,":
        return unknown("kind", word, KINDS)
    last = max([i for i, it in enumerate(words[:at]) if it.text == "|"], default=-1)
    if words[last + 1].text == "group" and before in (":", ","):
        return unknown("aggregate", word, AGGREGATES)
    return None


def snapshot_before(item):
    """The step before an item, in its own pipe, after which it is not known when a row started; or None."""
    at = item.before
    while at is not None:
        if at.what == "step" and at.words[0].text in SNAPSHOTS:
            return at
        at = at.before
    return None
