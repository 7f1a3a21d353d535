"""Lines for a terminal: as wide as it is, and in a pipe as they come."""
import os
import re
import sys
import textwrap

PLAIN_WIDTH = 100
NARROWEST = 40
KEPT = "\0"


def terminal_width():
    """The columns of the terminal to which is printed, where there is one that says so."""
    try:
        width = os.get_terminal_size(1).columns - 1
    except OSError:
        width = 0
    return width if width >= NARROWEST else PLAIN_WIDTH


def put(text):
    """Prints a line behind the program's own, on a terminal as several that fit it."""
    if sys.stdout.isatty():
        # what is to be typed stays in one piece
        text = re.sub("`[^`]{1,100}`", lambda it: it[0].replace(" ", KEPT), text)
        text = textwrap.fill(text, terminal_width() - 2, subsequent_indent="  ", break_long_words=False, break_on_hyphens=False)
    print(textwrap.indent(text.replace(KEPT, " "), "  "))
