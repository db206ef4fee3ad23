"""The lines of a report, and their words, taken one after another. docs/FORMATS.md says what a word may be."""
import reading
from reading import name_in, octets_in, shown, type_in, type_word


class BadLine(Exception):
    """A line, by its number from 1, that can't stand at its place, and why."""

    def __init__(self, number, why):
        super().__init__(f"line {number}: {why}")
        self.number = number


class Line:
    """A line of which one word after another is taken."""

    def __init__(self, number, words):
        self.number, self.words, self.next = number, words, 0

    def bad(self, why):
        return BadLine(self.number, why)

    def has_more(self):
        return self.next < len(self.words)

    def word(self, what):
        if not self.has_more():
            raise self.bad(f"ends where {what} is wanted")
        self.next += 1
        return self.words[self.next - 1]

    def same(self, what, read, write):
        """A word that is read, and is the one that would be written of what was read."""
        word = self.word(what)
        try:
            value = read(word)
            is_same = write(value) == word
        except (ValueError, IndexError):
            is_same = False
        if not is_same:
            raise self.bad(f"{word[:40]!r} is no {what}")
        return value

    def one_of(self, what, choices):
        word = self.word(what)
        if word not in choices:
            raise self.bad(f"{word[:40]!r} is no {what}")
        return word

    def number_below(self, what, limit):
        value = self.same(what, decimal, str)
        if value >= limit:
            raise self.bad(f"{value} is too great for a {what}")
        return value

    def octets(self, what):
        return self.same(what, octets_in, lambda octets: octets.hex() or "-")

    def name(self):
        name = self.same("name", name_in, shown)
        if len(reading.wire(name)) > 255 or not all(1 <= len(label) <= 63 for label in name):
            raise self.bad("the name is too long, or has an empty label")
        return name

    def kind(self):
        return self.same("type", type_in, checked(type_word))

    def klass(self):
        return self.same("class", class_in, checked(reading.class_word))

    def end(self):
        if self.has_more():
            raise self.bad(f"has the word {self.words[self.next][:40]!r} too many")


def decimal(word):
    if len(word) > 20:
        raise ValueError
    return int(word)


def checked(write):
    def written(number):
        if number not in range(65536):
            raise ValueError
        return write(number)
    return written


def class_in(word):
    return {text: number for number, text in reading.CLASSES.items()}.get(word) or int(word.removeprefix("CLASS"))


class Lines:
    """The lines of a text, which are taken one after another."""

    def __init__(self, octets):
        *whole, last = octets.split(b"\n")
        self.lines, self.rest, self.number = whole, last, 0

    def first_word(self):
        """Of the next line; nothing is taken."""
        return self.lines[self.number].split(b" ")[0].decode("latin-1") if self.number < len(self.lines) else None

    def take(self, *wanted):
        """The next line, after its first word, which is one of those that are wanted."""
        number = self.number + 1
        if self.number == len(self.lines):
            raise BadLine(number, "has no line end" if self.rest else f"is missing: {' or '.join(wanted)} is wanted")
        octets = self.lines[self.number]
        words = octets.decode("latin-1").split(" ")
        if not octets.isascii() or "" in words or b"\r" in octets:
            raise BadLine(number, "isn't made of words with one space between two")
        if words[0] not in wanted:
            raise BadLine(number, f"begins with {words[0][:40]!r}, where {' or '.join(wanted)} is wanted")
        self.number = number
        return Line(number, words[1:])

    def end(self):
        if self.number < len(self.lines) or self.rest:
            raise BadLine(self.number + 1, "stands after the end")
