"""Texts of frozen readings, read by the grammar of docs/REPLAY.md alone.

    >>> offset("f1:00"), offset("f1:0:-:[]:s[0,0]")
    (4, None)
    >>> offset("f1:0:-:[70,-]:s[0"), offset("f1:0:-:[]:x"), offset("f1:4194304:")
    (17, 10, 9)
    >>> text = "f1:66:(5,-):[70,71,-]:b9:[70([])]:[1?0,4;72,0,([],[73])]"
    >>> [text[first:behind] for first, behind in places(text)]
    ['70', '71', '70', '1', '72', '0', '73']
    >>> text = "f1:66:-:[]:p1:[70]:[g;/;80,81]"
    >>> [text[first:behind] for first, behind in places(text)]
    ['70', '80', '81']
"""

DATELINES, PLACES, NUMBERS = 4_194_303, 2_097_151, 4_294_967_295
KEYS, ROWS, STEPS = 4, 1_001, 16


class NoText(Exception):
    """What goes with the grammar up to here, and no further."""

    def __init__(self, at):
        super().__init__(at)
        self.at = at


class Reader:
    """A text, how far it was read, and where the numbers of places stand that have to lie below the end."""

    def __init__(self, text):
        self.text, self.at, self.places = text, 0, []

    def next_is(self, byte):
        return self.text[self.at:self.at + 1] == byte

    def take(self, word):
        """Takes a word as it stands."""
        for byte in word:
            if not self.next_is(byte):
                raise NoText(self.at)
            self.at += 1

    def took(self, byte):
        """Takes a byte, if it stands there."""
        found = self.next_is(byte)
        self.at += found
        return found

    def number(self, most):
        """Takes a number without leading zeros, at most so great: where it stands."""
        first, value = self.at, 0
        while self.next_is("") is False and self.text[self.at].isdecimal():
            value = 10 * value + int(self.text[self.at])
            if value > most or self.at > first and self.text[first] == "0":
                raise NoText(self.at)
            self.at += 1
        if self.at == first:
            raise NoText(self.at)
        return first, self.at

    def place(self):
        self.places.append(self.number(PLACES))

    def row(self):
        """An object and its keys."""
        self.place()
        for _ in range(KEYS):
            if not self.took(","):
                return
            if not self.took("-"):
                self.place()

    def listed(self, item, most):
        """Items between brackets, with semicolons between them."""
        self.take("[")
        if self.took("]"):
            return
        item()
        for _ in range(most - 1):
            if not self.took(";"):
                break
            item()
        self.take("]")

    def lists(self):
        """Lists of trees behind an opening bracket."""
        self.trees()
        while self.took(","):
            self.trees()
        self.take(")")

    def tree(self):
        self.place()
        if self.took("("):
            self.lists()

    def trees(self):
        self.listed(self.tree, NUMBERS)

    def iterator(self):
        self.place()
        if self.took("?"):
            self.number(NUMBERS)

    def frame(self):
        self.place()
        self.take(",")
        self.iterator()
        self.take(",(")
        self.lists()

    def scan(self):
        """The iterator over the candidates, a weight, and frames."""
        self.take("[")
        self.iterator()
        self.take(",")
        self.number(NUMBERS)
        while self.took(";"):
            self.frame()
        self.take("]")

    def walk(self):
        if self.took("g") or self.took("/"):
            return
        self.place()
        for _ in range(STEPS - 1):
            if not self.took(","):
                return
            self.place()

    def after(self):
        """The row behind which the page begins, of which nothing has to lie below the end."""
        if self.took("-"):
            return
        self.take("(")
        known = len(self.places)
        self.row()
        del self.places[known:]
        self.take(")")

    def body(self):
        if self.took("s"):
            return self.scan()
        is_printed = self.next_is("p")
        if not (self.took("b") or self.took("p")):
            raise NoText(self.at)
        self.number(NUMBERS)
        self.take(":")
        self.trees()
        self.take(":")
        return self.listed(self.walk, NUMBERS) if is_printed else self.scan()

    def whole(self):
        self.take("f1:")
        self.number(DATELINES)
        self.take(":")
        self.after()
        self.take(":")
        self.listed(self.row, ROWS)
        self.take(":")
        self.body()
        if self.at < len(self.text):
            raise NoText(self.at)


def offset(text):
    """How many of its bytes could begin a text of a frozen reading; None where it is one."""
    try:
        Reader(text).whole()
    except NoText as why:
        return why.at
    return None


def places(text):
    """Where the numbers stand in a text that have to lie below the end."""
    reader = Reader(text)
    reader.whole()
    return reader.places
