"""Places in files, and what is said of one."""
from dataclasses import dataclass, field

MOST_SHOWN = 100  # characters of a line


@dataclass
class Told:
    """What `explain` prints of a fault: where it is, the line there with a mark below, what it means, what
    is expected, and what helps."""

    place: str = ""
    shown: list = field(default_factory=list)
    means: list = field(default_factory=list)
    helps: list = field(default_factory=list)
    expected: str = ""

    def lines(self):
        if self.place:
            yield self.place
        yield from self.shown
        yield from (f"means: {it}" for it in self.means)
        if self.expected:
            yield f"expected: {self.expected}"
        yield from (f"helps: {it}" for it in dict.fromkeys(self.helps))


class File:
    """A file that a call read: its name and its bytes."""

    def __init__(self, name, data=None):
        self.name, self.data = name, data
        if data is None:
            with open(name, "rb") as file:
                self.data = file.read()

    @property
    def text(self):
        """A character for each byte, so that offsets are those of the program."""
        return self.data.decode("latin-1")

    @property
    def lines(self):
        """The lines without their LF or CR LF."""
        parts = self.text.split("\n")
        return [it.removesuffix("\r") for it in (parts if parts[-1] else parts[:-1])]

    def line_of(self, offset):
        """The number of the line of an offset, from 1, and where it begins."""
        before = self.data[:offset]
        return before.count(b"\n") + 1, before.rfind(b"\n") + 1

    def at(self, offset, length=1):
        """The place of an offset with the line there; a mark stands below so many bytes."""
        if not self.name:
            return Told(f"at {offset}")
        number, begin = self.line_of(offset)
        end = self.data.find(b"\n", begin)
        line = self.data[begin:end if end >= 0 else len(self.data)].rstrip(b"\r")
        before, marked = readable(line[:offset - begin]), readable(line[offset - begin:][:length])
        shown = marked_line(readable(line), before, max(1, len(marked)))
        return Told(f"{self.name}, line {number}, column {len(before) + 1}", shown)

    def line(self, number, column=0, length=0):
        """The place of a line, with a mark from a column on where a length is given."""
        if number > len(self.lines):
            return Told(f"{self.name or 'the file'}, line {number}")
        line = readable(self.lines[number - 1].encode("latin-1"))
        shown = marked_line(line, line[:column], length) if length else [f"    {cut(line)}"]
        return Told(f"{self.name}, line {number}", shown)


def readable(data):
    return data.decode("utf-8", "replace")


def cut(line):
    return line if len(line) <= MOST_SHOWN else line[:MOST_SHOWN] + " .."


def marked_line(line, before, length):
    """A line with a mark below it; of a long one what is around the mark."""
    begin = max(0, len(before) - MOST_SHOWN // 2) if len(line) > MOST_SHOWN else 0
    lead = ".. " if begin else ""
    blanks = "".join("\t" if it == "\t" else " " for it in lead + before[begin:])
    length = min(length, MOST_SHOWN // 2)
    return [f"    {lead}{cut(line[begin:])}", f"    {blanks}{'^' * length}"]


def listed(words, joint="or"):
    """Words with commas, and a word before the last."""
    words = list(dict.fromkeys(words))
    return f" {joint} ".join([", ".join(words[:-1]), words[-1]]) if len(words) > 1 else "".join(words)
