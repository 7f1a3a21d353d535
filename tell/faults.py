"""What stands behind the program's words of a wrong use, of a file that can't be read and of one that can't be stored."""
import difflib
import os

from lines import put
from pages import rows

# How alike two names of files have to be, as their endings mostly are.
ALIKE = 0.8


def tell_usage(read):
    put(read.fault or "a word is not as it should be")
    put(f"./help {read.verb}" if read.verb in read.known else "./help")


def tell_fault(line):
    """What the page says is to be done."""
    for _, text, _, mends in rows("COMMANDS.md", "Statuses"):
        if text == f"`{line}`" and mends:
            put(mends)


def tell_write(read, stored):
    """Says why a file was not stored, and whether that could be seen."""
    folder = os.path.dirname(stored) or "."
    if os.path.exists(stored) and os.path.exists(read) and os.path.samefile(read, stored):
        put(f"{stored} is the file that was read: give the image a name of its own")
    elif os.path.isdir(stored):
        put(f"{stored} is a folder: give the image a name in it")
    elif not os.path.isdir(folder):
        put(f"there is no folder {folder}")
    elif not os.access(folder, os.W_OK):
        put(f"nothing can be written in the folder {folder}")
    else:
        return False
    return True


def tell_read(name):
    """Why a file was not read, as far as it can be seen."""
    folder = os.path.dirname(name) or "."
    if name == "-":
        return
    if os.path.isdir(name):
        put(f"{name} is a folder")
    elif os.path.isfile(name) and os.access(name, os.R_OK):
        put(f"{name} has {os.path.getsize(name):,} bytes: ./help status 8")
    elif os.path.exists(name):
        put(f"{name} can't be read by who you are")
    elif not os.path.isdir(folder):
        put(f"there is no folder {folder}")
    else:
        near = difflib.get_close_matches(os.path.basename(name), os.listdir(folder), 1, ALIKE)
        put(f"there is no file {name}" + (f"; did you mean {os.path.join(os.path.dirname(name), near[0])}?" if near else ""))
