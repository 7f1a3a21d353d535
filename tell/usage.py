"""Which word behind `./ehc` is at fault, and what was possible, by the tables of docs/COMMANDS.md."""
import difflib
import re

from pages import quoted, rows

MOST_REPLIES = 1_000_000


def nearest(word, words):
    close = difflib.get_close_matches(word, words, 1) or [it for it in words if re.fullmatch("-[a-z]", word) and it.startswith("-" + word)]
    return f"; did you mean `{close[0]}`?" if close else ""


def commands():
    """Each command of `./ehc`: its operands as the page has them, and what it does."""
    found = {}
    for row in rows("COMMANDS.md", "Commands"):
        for name, operands in re.findall(r"`\./ehc (\w+)([^`]*)`", row[0]):
            found[name] = (operands.split(), row[1])
    return found


def scripts():
    """What stands beside `./ehc`."""
    return [it for row in rows("COMMANDS.md", "Commands") for it in re.findall(r"`\./(\w+)", row[0]) if it != "ehc"]


def options(command):
    """The options of a command, by name: how each is written, what its value is, and what it does."""
    found = {}
    for option, whose, value, does in rows("COMMANDS.md", "Options"):
        if command in re.split(r"[ ,]+", whose):
            form = quoted(option)[0]
            found[form.split("=")[0]] = (form, value, does)
    return found


def number(text):
    """The value of a number as the pages write it: `2,000`, `2^40`."""
    base, _, power = text.replace(",", "").partition("^")
    return int(base) ** int(power or 1)


def is_within(text, bounds):
    """Whether digits say a number of a range `A to B`; without a range all is well."""
    found = re.search(r"(\d[\d,^]*) to (\d[\d,^]*)", bounds)
    return not found or bool(re.fullmatch(r"[1-9]\d*", text)) and number(found[1]) <= int(text) <= number(found[2])


def is_address(text):
    """Whether this is an address of 64 bits: hexadecimal behind `0x`, or decimal."""
    found = re.fullmatch(r"0x([0-9A-Fa-f]+)|(0|[1-9]\d*)", text)
    return bool(found) and int(found[1] or found[2], 16 if found[1] else 10) < 2**64


def wrong_item(items):
    """The first of the items that is none, where the value is a list of items."""
    replies = 0
    for item in items.split(","):
        found = re.fullmatch(r"(?:v(0|-?[1-9]\d*)|r(0|[1-9]\d*))(?:\*([1-9]\d*))?", item)
        replies += int(found[3] or 1) if found else 0
        fits = found and (-(2**31) <= int(found[1]) < 2**31 if found[1] else int(found[2]) < 2**32)
        if not fits or replies > MOST_REPLIES:
            return item
    return None


class Words:
    """The words behind `./ehc`: the command, its operands, and what is wrong with them, if anything is."""

    def __init__(self, words):
        self.known, self.verb, self.operands, self.seen = commands(), words[0] if words else "", [], []
        self.fault = self.read(words[1:]) or next((f"`{word}` is no UTF-8" for word in words if re.search("[\ud800-\udfff]", word)), None)

    def read(self, rest):
        if self.verb not in self.known:
            return self.no_command(rest)
        left, fault = list(rest), None
        while left and fault is None:
            word = left.pop(0)
            if word == "--":
                self.operands, left = self.operands + left, []
            elif word.startswith("-") and word != "-":
                fault = self.option(word, left)
            else:
                self.operands.append(word)
        return fault or self.counted()

    def no_command(self, rest):
        listed = ", ".join(self.known)
        if not self.verb:
            return f"no command: {listed}"
        if self.verb in scripts():
            return f"`{self.verb}` is a script of its own: ./{self.verb}"
        verb = next((word for word in rest if word in self.known), None)
        if self.verb.startswith("-") and verb:
            return f"`{self.verb}` stands before the command: ./ehc {verb} {self.verb} .."
        return f"no command `{self.verb}`: {listed}{nearest(self.verb, [*self.known, *scripts()])}"

    def option(self, word, left):
        """Takes an option, with its value where that stands apart."""
        mine = options(self.verb)
        name, equals, value = word.partition("=")
        if name not in mine:
            listed = ", ".join(form for form, _, _ in mine.values()) or "no options"
            return f"`{self.verb}` takes no `{name}`: {listed}{nearest(name, mine)}{self.meant(name, mine)}"
        form, wanted, _ = mine[name]
        self.seen.append(name)
        if "=" not in form:
            return f"`{name}` takes no value" if equals else None
        value = value if equals else left.pop(0) if left else ""
        if not value:
            return f"`{name}` wants a value: {form}, {wanted}"
        return self.valued(name, value, wanted)

    def meant(self, name, mine):
        """What a user of other tools is after."""
        wanted = self.known[self.verb][0]
        if name == "-o" and len(wanted) == 2:
            return f"; {wanted[1]} stands as it is: ./ehc {self.verb} {' '.join(wanted)}"
        if "." in name:
            return f"; a file of that name wants `--` before it: ./ehc {self.verb} -- {name}"
        others = [it for it in self.known if name in options(it)]
        return f"; {told(others)} take{'s' * (len(others) == 1)} it" if others else ""

    def valued(self, name, value, wanted):
        """What is wrong with the value of an option."""
        choices = wanted.split(" or ")
        if name == "--foreign":
            item = wrong_item(value)
            return None if item is None else f"`{name}={value}`: `{item}` is no item: {wanted}"
        if "an address" in wanted:
            return None if is_address(value) or value in quoted(wanted) else f"`{name}={value}`: {wanted}"
        if " " not in choices[0] and value not in choices or not is_within(value, wanted):
            return f"`{name}={value}`: {wanted}"
        return None

    def counted(self):
        """What is wrong with how many operands and inputs there are."""
        wanted, does = self.known[self.verb]
        given = self.operands
        most = len(wanted) if not wanted[-1].endswith("..") else len(given)
        least = sum(not it.startswith("[") for it in wanted)
        if not least <= len(given) <= most:
            return f"`{self.verb}` wants {told(wanted)}, and has {told(given) or 'none'}{self.many() if len(given) > most else ''}"
        if "" in given:
            return f"`{self.verb}` has an empty word for {wanted[given.index('')]}"
        if wanted == ["N"] and not is_within(given[0], does):
            bounds = re.search(r"a number from \S+ to [0-9,^]*[0-9]", does)[0]
            return f"`{self.verb} {given[0]}`: {bounds}, of digits alone"
        if wanted[-1] == "PC..":
            wrong = [it for it in given[1:] if not is_address(it)]
            if wrong:
                return f"`{wrong[0]}` is no address: hexadecimal digits behind `0x`, or decimal, below 2^64"
        return self.repeated()

    def many(self):
        """Which command does the same with more words."""
        found = [it for it, (wanted, does) in self.known.items() if f"as `{self.verb}` does" in does and (len(wanted) > 1 or wanted[-1].endswith(".."))]
        return "".join(f"; `{it}` takes {told(self.known[it][0])}" for it in found)

    def repeated(self):
        """What is wrong with how often an option stands."""
        for name, (form, _, does) in options(self.verb).items():
            count = self.seen.count(name)
            least, most = times(does)
            if count < least or count > most > 1:
                return f"`{self.verb}` wants {least} to {most} times `{form}`, and has {count or 'none'}"
            if count > most:
                return f"`{name}` stands twice"
        return None


def times(does):
    """How often an option stands at least and at most, by what the page says of it."""
    found = re.search(r"(?:(\d+) to|at most) (\d+) of them", does)
    return (int(found[1] or 0), int(found[2])) if found else (0, 1)


def told(words):
    return " and ".join([", ".join(words[:-1]), words[-1]] if len(words) > 1 else words)


def stop_at_fault(command, words):
    """For a script that is a command of `./ehc`: its words as they were read, or the end with what is wrong."""
    read = Words([command, *words])
    if read.fault:
        raise Usage(f"ehc: usage\n  {read.fault}\n  ./help {command}")
    return read


class Usage(Exception):
    """The words are none of a command."""
