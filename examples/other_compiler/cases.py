"""The cases: a source each, and the lines that its run prints, without those of `--trace`, worked out by hand. One of assembly stands without the kit.

The first comment of a source says what it shows, and in lines of their own: `exec ..`, options of the run; `std V`, where it is not C++03; `only ..`, with which
compilers and levels it is compiled; `not ..`, with which it is not; `otherwise ..`, which make another run of it, whose lines stand in NAME.otherwise.out, or in a
file with the name of the compiler, or of compiler and level, where not all do the same;
`events ..`, with which the events of `--trace` alone are others.
A compiler is `g++`, `clang` or `host`, the g++ of this machine with its own library; it stands alone or with a level, as `g++ -O1`.
"""
import dataclasses
import pathlib
import re

FOLDER = pathlib.Path(__file__).resolve().parent / "cases"


@dataclasses.dataclass
class Case:
    source: pathlib.Path
    said: dict

    @property
    def name(self):
        return self.source.stem

    @property
    def std(self):
        return self.said.get("std", "03")

    @property
    def options(self):
        """The options of the run."""
        return self.said.get("exec", "").split()

    def names(self, word, compiler, level):
        """Whether the line of that word names the compiler at the level."""
        named = re.split(", *", self.said.get(word, ""))
        return compiler in named or f"{compiler} {level}" in named

    def is_for(self, compiler, level):
        return not self.names("not", compiler, level) and ("only" not in self.said or self.names("only", compiler, level))

    def lines(self, compiler, level):
        others = [f"{compiler}{level}", compiler, "otherwise"] if self.names("otherwise", compiler, level) else []
        files = [self.source.with_name(f"{self.name}.{it}.out") for it in others]
        return next((it for it in files if it.exists()), self.source.with_suffix(".out")).read_text()

    @property
    def is_bare(self):
        """Whether it has all of an image itself."""
        return self.source.suffix == ".s"

    @property
    def is_common(self):
        """Whether it is in ehc's language too."""
        return self.source.suffix == ".cc"


def said_in(text):
    """The lines of a source's first comment that say something of how it is run."""
    comment = re.match(r"((//|#).*\n)*", text)[0]
    return dict(re.findall(r"^(?://|#) (exec|std|only|not|otherwise|events) (.*)$", comment, re.M))


def cases():
    return [Case(it, said_in(it.read_text())) for it in sorted(FOLDER.iterdir()) if it.suffix != ".out"]
