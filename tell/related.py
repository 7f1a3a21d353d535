"""Which declarations of a source a refusal is about."""
import difflib
import re

from declared import Declarations
from pages import quoted
from tokens import language


class Related(Declarations):
    """The declarations of a source, asked for those behind a refused place."""

    def head(self, one):
        """A declaration as it stands, up to its body or its end."""
        depth, end = 0, len(self.data)
        for text, at in self.tokens:
            if at >= one.at and depth == 0 and text in ("{", ";", ":", "=", ",", ")"):
                end = at
                break
            depth += (at >= one.at) * ((text == "(") - (text == ")"))
        return " ".join(self.data[one.first : end].decode(errors="replace").split())

    def number(self, at):
        """Which token stands at a place."""
        return next((i for i, it in enumerate(self.tokens) if it[1] == at), len(self.tokens) - 1)

    def standing_at(self, at):
        return next((it for it in self.found if it.at == at), None)

    def members(self, name):
        """The declarations in the braces of a class."""
        return [it for it in self.found if name in self.braces and it.scope == self.braces[name][:1]]

    def class_round(self, at):
        return next((name for name, (first, last) in self.braces.items() if first < at < last), None)

    def lineage(self, name):
        """A class and its bases."""
        seen = []
        while name in self.bases and name not in seen:
            seen.append(name)
            name = self.bases[name]
        return seen

    def earlier(self, at):
        """The declaration that another one repeats, or differs from."""
        second = self.standing_at(at)
        if second is None:
            return []
        same = [it for it in self.found if it.name == second.name and it.at < at]
        if second.kind in ("constructor", "destructor"):
            return [it for it in same if it.scope == second.scope and self.form(it) == self.form(second)][:1]
        near = [it for it in same if it.scope == second.scope and it.kind not in ("constructor", "destructor")]
        near = near or [it for it in same if it.kind == "class" or it.name == "main"]
        return ([it for it in near if it.has_body and second.has_body] or near)[:1]

    def form(self, one):
        """What tells constructors and the destructor of a class apart."""
        is_copy = one.kind == "constructor" and len(one.parameters) == 1 and one.parameters[0].startswith(f"const {one.name} &")
        return one.kind, len(one.parameters), is_copy

    def constructors(self, name):
        """The constructors of a class that are declared, but for the copy constructor, unless it is the only one."""
        own = [it for it in self.members(name) if it.kind == "constructor"]
        return [it for it in own if not self.form(it)[2]] or own

    def part(self, at):
        """The member of the class round a place that has the name which stands there."""
        name = self.tokens[self.number(at)][0]
        return [it for it in self.members(self.class_round(at)) if it.kind == "member" and it.name == name][:1]

    def called(self, at):
        """What a name that is called, or made an object of, may mean."""
        number = self.number(at)
        name, before = self.tokens[number][0], self.tokens[number - 1][0] if number else ""
        functions = [it for it in self.found if it.kind == "function" and it.name == name]
        if before == ".":
            return [it for it in functions if it.scope]
        if name in self.bases:
            return self.constructors(name)
        for part in self.part(at):
            return self.constructors(part.type) if part.type in self.bases else [part]
        reached = [it for owner in self.lineage(self.class_round(at)) for it in self.members(owner) if it in functions]
        return reached[:1] or [it for it in functions if not it.scope][:1]

    def given(self, at):
        """How many arguments stand behind a name, or behind the name of the object that follows it."""
        texts = [text for text, _ in self.tokens[self.number(at) + 1 :]]
        if texts[:1] not in (["("], [";"]):
            texts = texts[1:]
        if texts[:1] != ["("] or texts[1:2] == [")"]:
            return 0
        depth, commas = 0, 0
        for text in texts:
            depth += (text == "(") - (text == ")")
            commas += text == "," and depth == 1
            if depth == 0:
                break
        return commas + 1

    def wanting(self, at):
        """The constructors for whose arguments an object can't be made without any."""
        one = self.standing_at(at)
        if one and one.kind == "constructor":
            return self.wanting_parts(one.name, ())
        if one:
            return self.wanting_class(one.type, ())
        part = self.part(at)
        return self.wanting_class(part[0].type if part else self.tokens[self.number(at)][0], ())

    def wanting_class(self, name, seen):
        """Those of a class, or, where it declares none, of its parts."""
        own = self.constructors(name)
        if own or name in seen or name not in self.bases:
            return [] if any(not it.parameters for it in own) else own
        return self.wanting_parts(name, (*seen, name))

    def wanting_parts(self, name, seen):
        parts = [self.bases[name], *(it.type for it in self.members(name) if it.kind == "member")]
        return [made for part in dict.fromkeys(parts) for made in self.wanting_class(part, seen)]

    def uses(self, at):
        """The first call of the function that is declared at a place."""
        name = self.tokens[self.number(at)][0]
        found = [place for (text, place), (behind, _) in zip(self.tokens, self.tokens[1:]) if text == name and behind in ("(", ")")]
        return [place for place in found if not self.standing_at(place)][:1]

    def nearest(self, at):
        """The names that are like the one at a place: those declared, and those that need no declaration."""
        name = self.tokens[self.number(at)][0]
        known = {it.name for it in self.found} | {it.split("::")[-1] for it in undeclared()}
        return difflib.get_close_matches(name, known - {name}, 2)

    def is_open(self, scope, at):
        """Whether a place is in all blocks of a scope."""
        return all(begin <= at < self.ends.get(begin, len(self.data)) for begin in scope)

    def meant(self, at):
        """The declaration in reach of the name at a place: of those before it the innermost, which is the last."""
        name = self.tokens[self.number(at)][0]
        return [it for it in self.found if it.name == name and it.at < at and self.is_open(it.scope, at)][-1:]

    def named(self, name):
        return [it for it in self.found if it.name == name and it.kind == "function"]

    def initialised(self, at):
        """What the constructor that a place is in may initialise."""
        name = self.class_round(at)
        base = self.bases.get(name)
        return ([base] if base else []) + [it.name for it in self.members(name) if it.kind == "member"]


def undeclared():
    """The functions that need no declaration."""
    found = re.search(r"((?:`[\w:]+`(?:,| and)?\s+)+)are functions that need no declaration, as are\s+((?:`[\w:]+`(?:,| and)?\s*)+)", language())
    return quoted(found[1] + found[2])


def arguments(count):
    return "1 argument" if count == 1 else f"{count or 'no'} arguments"


def quotes(names):
    return ", ".join(f"`{it}`" for it in names)


# What is told behind the place of a declaration, by the rule that is broken.
TOLD = {
    32: ("declared at", Related.meant),
    36: ("declared at", Related.meant),
    37: ("the other one at", Related.earlier),
    38: ("declared at", lambda known, _: known.named("main")),
    46: ("arguments are wanted by", Related.wanting),
    47: ("defined at", lambda known, _: [it for it in known.named("main") if it.has_body][:1]),
    49: ("declared at", Related.meant),
}


def related(source, number, at):
    """Lines that say which other places of the source a refusal is about."""
    known = Related(source.data)
    if not known.tokens:
        return []
    name = known.tokens[known.number(at)][0]

    def told(words, found):
        return [f"{words} {source.where(it.at)}: `{known.head(it)}`" for it in found]

    if number in TOLD:
        words, find = TOLD[number]
        return told(words, find(known, at))
    if number == 30:
        near = known.nearest(at)
        return [f"did you mean {' or '.join(f'`{it}`' for it in near)}?"] if near else []
    if number == 31:
        return told("declared before at", known.earlier(at)) or [f"`{it}` needs no declaration" for it in undeclared() if it == name]
    if number == 33:
        return [f"`{name}` has {arguments(known.given(at))} here", *told("declared at", known.called(at))]
    if number == 43:
        return [f"used at {source.where(place)}" for place in known.uses(at)]
    if number == 48:
        return [f"what may stand here: {quotes(known.initialised(at)) or 'nothing'}"]
    return []
