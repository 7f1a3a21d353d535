"""What is said of a refused source or schedule: the place, the line, what stands behind it, and how it is mended."""
from lines import put
from pages import rules
from related import related
from source import Source
from tokens import expected, left_out, token_before

# By the tokens and by the grammar: what stands there may be C++ that this language leaves out.
BYTE, TOKEN = 10, 20
MENDED = "How it is mended"


def tell_source(kind, number, at, name, data, is_brief):
    found = list(rules(number, "COMMANDS.md" if kind == "schedule" else "LANGUAGE.md"))
    if not found:
        raise SystemExit(f"explain: no refusal of a {kind} has the number {number}")
    source = Source(name, data)
    # the first text is the rule in a few words, or the rule itself where it has no more
    title, ((_, words), *rest) = found[0]
    print(f"{source.where(at)}: {words} (rule {number}{'' if is_brief else ', ' + title})")
    print(source.shown(at))
    is_told = kind == "source" and tell_facts(source, number, at)
    for label, text in rest:
        if label == MENDED and not is_told or not is_brief:
            put(f"{label.lower()}: {text}")


def tell_facts(source, number, at):
    """Prints what the source itself has to say, and whether that mends it."""
    out = left_out(source.data, at) if number in (BYTE, TOKEN) else None
    if out:
        put(f"left out of this language: `{out[0]}`, {out[1]}")
        put(f"in its place: {out[2]}")
    elif number == TOKEN:
        tell_before(source, at)
        put(f"expected: {' '.join(expected(source.data, at)) or 'the end'}")
    elif number > TOKEN:
        for line in related(source, number, at):
            put(line)
    return out is not None


def tell_before(source, at):
    """Where the token before stands, if that is another line: what lacks belongs behind it."""
    token = token_before(source.data, at)
    if token and source.place(token[1])[0] != source.place(at)[0]:
        put(f"behind `{token[0]}` at {source.where(token[1])}")
