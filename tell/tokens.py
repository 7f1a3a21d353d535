"""The tokens of a source, as docs/LANGUAGE.md has them, and which of them may stand at a place."""
import os
import pathlib
import re
import tempfile

from pages import DOCS, quoted, rows
from program import program

# What stands for a token that is not itself in the grammar.
STANDS_FOR = {"NAME": "x", "LITERAL": "1"}
TOLD = {"NAME": "a name", "LITERAL": "a literal"}
# Words of the grammar that are names to the tokens, and nothing new where a name may stand.
NAMES = {"noexcept", "bad_exception"}


def language():
    return (DOCS / "LANGUAGE.md").read_text()


def marks():
    """All marks in the order of the page, those that no program uses too."""
    found = re.search(r"^- Marks are (.*?)\.\n-", language(), re.M | re.S)
    return [mark for group in quoted(found[1]) for mark in group.split()]


def tokens(data):
    """The text of each token and its place; of what is no token there is nothing."""
    mark = "|".join(re.escape(it) for it in sorted(marks(), key=len, reverse=True))
    form = rf"(?:[\t-\r ]+|//[^\n]*|/\*.*?\*/)|([A-Za-z_]\w*|\d\w*|{mark})"
    found = re.finditer(form.encode(), data, re.S | re.A)
    return [(it[1].decode(), it.start()) for it in found if it[1]]


def grammar():
    """The tokens of the grammar, and groups of them of which each stands just where the others do.

    These are the operators but for `-`, which is one in front of an operand too, and the words that begin a statement and stand nowhere else.
    """
    text = re.search(r"```\n(program .*?)```", language(), re.S)[1]
    quotes = re.findall(r'"([^"]+)"', text)
    ranks = re.search(r"^Operators bind, .*? operand; (.*?)\. Those", language(), re.M | re.S)[1]
    operators = [mark for group in quoted(ranks) for mark in group.split()]
    statement = re.search(r"^statement +(=.*?)^\w", text, re.M | re.S)[1]
    begins = [word for word in re.findall(r'[=|] "(\w+)"', statement) if quotes.count(word) == 1]
    order = ["NAME", "LITERAL", *dict.fromkeys(quotes)]
    return order + [it for it in operators if it not in order], [[it for it in operators if it != "-"], begins]


def last_declaration(data, at):
    """Where the declaration begins in which a place is: what stands before whole declarations has no say in what may follow."""
    first, depth, begun, is_class = 0, 0, False, False
    for text, place in tokens(data[:at]):
        if not begun:
            first, begun, is_class = place, True, text == "struct"
        depth += (text in "{(") - (text in "})")
        if depth == 0 and (text == ";" or text == "}" and not is_class):
            first, begun = place + 1, False
    return first


def refused_at(stderr):
    """The place of a refusal by the tokens or the grammar, if there is one."""
    found = re.match(r"ehc: source refused: (?:10|11|12|20) at (\d+)", stderr)
    return int(found[1]) if found else None


def expected(data, at):
    """What may stand at a place, by the program: put there as the last of the source, it is not refused itself."""
    listed, groups = grammar()
    spared = {it for group in groups for it in group[1:]}
    before = data[last_declaration(data, at) : at] + b" "
    fits = fitting(before, [it for it in listed if it not in spared])
    for group in groups:
        fits |= set(group if group[0] in fits else [])
    if "NAME" in fits:
        fits -= NAMES
    known = marks()
    # names and literals first, then marks, then words
    places = {it: 0 if it in STANDS_FOR else 1 + known.index(it) if it in known else len(known) + 1 for it in listed}
    return [TOLD.get(it, it) for it in sorted(fits, key=lambda it: (places[it], listed.index(it)))]


def fitting(before, asked):
    """Those of the tokens which the program takes behind a text, all asked at once."""
    fits = set()
    with tempfile.TemporaryDirectory() as folder:
        runs = [(token, *start(f"{folder}/{number}", before, token)) for number, token in enumerate(asked)]
        for number, (token, length, run) in enumerate(runs):
            os.waitpid(run, 0)
            place = refused_at(pathlib.Path(f"{folder}/{number}.said").read_text())
            if place is None or place >= length:
                fits.add(token)
    return fits


def start(file, before, token):
    """Asks the program of a source that ends with a token: the source's length, and the process."""
    text = before + STANDS_FOR.get(token, token).encode()
    pathlib.Path(file).write_bytes(text)
    said = (os.POSIX_SPAWN_OPEN, 2, f"{file}.said", os.O_WRONLY | os.O_CREAT, 0o600)
    words = [program(), "mean", "--max=1", file]
    return len(text), os.posix_spawn(program(), words, os.environ, file_actions=[said, (os.POSIX_SPAWN_OPEN, 1, os.devnull, os.O_WRONLY, 0)])


def left_out(data, at):
    """What of C++ stands at a place, where this language leaves it out: the token, what it is, and what to write in its place."""
    here = [text for text, place in tokens(data[at : at + 100]) if place == 0]
    token = here[0] if here else data[at : at + 1].decode(errors="replace")
    for first, *texts in rows("LANGUAGE.md", "Left out"):
        if token in quoted(first):
            return token, *texts
        # bytes that are no token of C++ either
        if re.fullmatch("([0-9A-F]{2} ?)+", first) and data.startswith(bytes.fromhex(first), at):
            return first, *texts
    return None


def token_before(data, at):
    """The token before a place, and where it stands."""
    return (tokens(data[:at]) or [None])[-1]
