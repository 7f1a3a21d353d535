"""A source or a schedule by its lines, as a terminal shows them."""
import bisect
import re
import unicodedata

from lines import terminal_width


def visible(text):
    """The bytes as text, in which nothing moves the cursor but tabs."""
    return re.sub(r"[\x00-\x08\x0b-\x1f\x7f-\x9f\ufeff]", "\ufffd", text.decode(errors="replace"))


def columns(text):
    """How many columns a text takes."""
    return sum(0 if unicodedata.combining(it) else 1 + (unicodedata.east_asian_width(it) in "WF") for it in text)


class Source:
    """The text of a source or of a schedule, by lines."""

    def __init__(self, name, data):
        self.name, self.data = name, data
        self.starts = [0, *(it.end() for it in re.finditer(rb"\n", data))]

    def place(self, at):
        line = bisect.bisect_right(self.starts, min(at, len(self.data))) - 1
        return line, at - self.starts[line]

    def where(self, at):
        line, column = self.place(at)
        return f"{self.name}:{line + 1}:{column + 1}"

    def line(self, at):
        return self.data[self.starts[self.place(at)[0]] :].split(b"\n", 1)[0].rstrip(b"\r")

    def last(self):
        """The end of the last line that has more than blanks."""
        return len(self.data.rstrip(b"\t\n\v\f\r "))

    def shown(self, at, width=None):
        """The line with a caret, or of a longer one the part round it. At the end of the source it is the last line with a text."""
        at = at if self.data[at:].strip() else self.last()
        width = width or terminal_width()
        line = self.line(at)
        whole, front = visible(line).expandtabs(8), visible(line[: self.place(at)[1]]).expandtabs(8)
        first = max(0, min(len(front) - width // 2, len(whole) - width + 4)) if len(whole) > width else 0
        before = "... " if first else ""
        room = width - len(before)
        behind = "" if len(whole) <= first + room else " ..."
        shown = whole[first : first + room - len(behind)]
        return f"{before}{shown}{behind}\n{' ' * columns(before + front[first:])}^"
