"""The declarations of a source that the grammar takes."""
import dataclasses

from tokens import tokens

WORDS = {"int", "void", "const", "return", "throw", "else", "struct", "if", "while", "try", "catch", "break", "continue", "std", "public"}


@dataclasses.dataclass
class Declared:
    """A declaration: its kind, its name and where that stands, its scope, and of a function its parameters and whether it has a body."""

    kind: str
    name: str
    at: int
    first: int
    scope: tuple
    type: str = None
    parameters: list = dataclasses.field(default_factory=list)
    has_body: bool = False


class Declarations:
    """Reads the tokens from left to right. A scope is the list of the places at which the blocks round it begin.

    Classes are kept by name: the base of each, and the places of its braces. Of each scope is kept where it ends.
    """

    def __init__(self, data):
        self.data, self.tokens, self.now = data, tokens(data), 0
        self.found, self.bases, self.braces, self.ends = [], {}, {}, {}
        while self.now < len(self.tokens):
            self.declaration(())

    def text(self, ahead=0):
        return self.tokens[self.now + ahead][0] if self.now + ahead < len(self.tokens) else ""

    def at(self, ahead=0):
        return self.tokens[self.now + ahead][1] if self.now + ahead < len(self.tokens) else len(self.data)

    def is_name(self, ahead=0):
        text = self.text(ahead)
        return (text[:1].isalpha() or text[:1] == "_") and text not in WORDS

    def add(self, kind, ahead, scope, begins=0, **more):
        """Keeps a declaration that begins at a token, and whose name stands at another."""
        self.found.append(Declared(kind, self.text(ahead), self.at(ahead), self.at(begins), scope, **more))

    def skip_to(self, *ends):
        while self.now < len(self.tokens) and self.text() not in ends:
            self.now += 1

    def declaration(self, scope):
        if self.text() == "struct":
            self.read_class()
        elif self.text(2) == "(":
            self.function("function", 1, scope)
        else:
            self.add("variable", 1, scope, type=self.text())
            self.skip_to(";")
            self.now += 1

    def read_class(self):
        name = self.text(1)
        self.add("class", 1, ())
        self.now += 2
        base = None
        while self.text() not in ("{", ""):
            base, self.now = self.text(), self.now + 1
        self.bases.setdefault(name, base)
        scope = (self.at(),)
        self.now += 1
        while self.text() not in ("}", ""):
            self.member(name, scope)
        self.braces.setdefault(name, (*scope, self.at()))
        self.ends[scope[0]] = self.at()
        self.now += 2

    def member(self, name, scope):
        if self.text() == "~":
            self.function("destructor", 1, scope)
        elif self.text(1) == "(":
            self.function("constructor", 0, scope, name)
        elif self.text(2) == "(":
            self.function("function", 1, scope)
        else:
            self.add("member", 1, scope, type=self.text())
            self.now += 3

    def function(self, kind, ahead, scope, owner=None):
        self.add(kind, ahead, scope, type=owner or self.text())
        function = self.found[-1]
        self.now += ahead + 2
        inner = (*scope, function.at)
        while self.text() not in (")", ""):
            self.parameter(function, inner)
        self.skip_to("{", ";")
        function.has_body = self.text() == "{"
        self.now += 1
        if function.has_body:
            self.block(inner)

    def parameter(self, function, scope):
        words = 0
        while self.text(words) not in (",", ")", ""):
            words += 1
        function.parameters.append(" ".join(self.text(i) for i in range(words)))
        if words > 1 and self.is_name(words - 1) and self.text(words - 2) != "const":
            self.add("parameter", words - 1, scope, type=self.text(1 if self.text() == "const" else 0))
        self.now += words + (self.text(words) == ",")

    def block(self, scope):
        """The rest of a block, and the blocks in it; a declaration stands behind a brace or a semicolon."""
        scopes, begins = [scope], True
        while scopes and self.now < len(self.tokens):
            text = self.text()
            if begins:
                self.local(scopes[-1])
            if text == "{":
                scopes.append((*scopes[-1], self.at()))
            elif text == "}":
                self.ends[scopes.pop()[-1]] = self.at()
            elif text == "catch":
                self.handler(scopes)
            begins = text in ("{", "}", ";")
            self.now += 1

    def handler(self, scopes):
        """The parameter of a handler, which is in the scope of its block."""
        words = 2
        while self.text(words) not in (")", ""):
            words += 1
        if words > 3 and self.is_name(words - 1) and self.text(words - 2) not in ("const", "(", "::"):
            self.add("parameter", words - 1, (*scopes[-1], self.at(words + 1)), 2, type=self.text(3 if self.text(2) == "const" else 2))

    def local(self, scope):
        """A declaration of a block, if one stands here."""
        first = 1 if self.text() == "const" else 0
        typed = self.text(first) == "int" or self.is_name(first)
        name = first + 2 if self.text(first + 1) == "&" else first + 1
        if typed and self.is_name(name) and self.text(name) != ".":
            self.add("variable", name, scope, type=self.text(first))
