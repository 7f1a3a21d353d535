"""Makes the completion files and the man page in shell/ from docs/COMMANDS.md: `python3 tell/made.py`, or with `check` says which are not as they would be made."""
import pathlib
import re
import sys

from pages import rows
from usage import commands, options, times

SHELL = pathlib.Path(__file__).resolve().parent.parent / "shell"
NOTE = "made from docs/COMMANDS.md by tell/made.py"


BASH = """# Completion of ehc for bash, @note@: `source shell/ehc.bash`.
_ehc() {
    local word=${COMP_WORDS[COMP_CWORD]} option=${COMP_WORDS[COMP_CWORD - 1]} options=''
    if [ "$COMP_CWORD" -eq 1 ]; then
        COMPREPLY=($(compgen -W "@commands@" -- "$word"))
        return
    fi
    # `=` is a word of its own
    if [ "$word" = = ]; then word=''; elif [ "$option" = = ]; then option=${COMP_WORDS[COMP_CWORD - 2]}; fi
    case ${COMP_WORDS[1]} in
@options@
    esac
    case $option in
@values@
        @files@) COMPREPLY=($(compgen -f -- "$word")) ;;
        @others@) COMPREPLY=() ;;
        *)
            case $word in
                -*) COMPREPLY=($(compgen -W "$options" -- "$word")) ;;
                *) COMPREPLY=($(compgen -f -- "$word")) ;;
            esac
            [[ ${COMPREPLY[0]-} != *= ]] || compopt -o nospace 2>/dev/null
            ;;
    esac
}
complete -o filenames -F _ehc ehc
"""

ZSH = """#compdef ehc
# Completion of ehc for zsh, @note@: put it into a folder of $fpath.
_ehc() {
    local -a known
    known=(
@commands@
    )
    if ((CURRENT == 2)); then
        _describe command known
        return
    fi
    local command=$words[2]
    shift words
    ((CURRENT--))
    case $command in
@options@
    esac
}
_ehc "$@"
"""


def filled(form, **parts):
    """A form with its parts in their places; of a list each is a line or a word, as the place is a line or in one."""
    for name, part in {"note": NOTE, **parts}.items():
        form = re.sub(rf"^@{name}@$", lambda _: "\n".join(part), form, flags=re.M)
        form = form.replace(f"@{name}@", part if isinstance(part, str) else " ".join(part))
    return form


def choices(value):
    """The values of an option that has a few alone, or none."""
    found = value.split(" or ")
    return found if value and " " not in "".join(found) else []


def brief(text):
    """The first part of a description, without marks."""
    return re.split(r"[;:,(]| and then", text.replace("`", ""))[0].strip()


def all_options():
    """Each option once, with its form and its value."""
    return {name: (form, value) for command in commands() for name, (form, value, _) in options(command).items()}


def bash_options(command):
    """The options of a command; one that takes a value ends with `=`."""
    return " ".join(name + "=" * ("=" in form) for name, (form, _, _) in options(command).items())


def bash():
    valued = {name: choices(value) for name, (form, value) in all_options().items() if "=" in form}
    files = [name for name, (form, _) in all_options().items() if form.endswith("=FILE")]
    return filled(
        BASH,
        commands=commands(),
        options=[f'        {command}) options="{bash_options(command)}" ;;' for command in commands()],
        values=[f'        {name}) COMPREPLY=($(compgen -W "{" ".join(few)}" -- "$word")) ;;' for name, few in valued.items() if few],
        files=" | ".join(files),
        others=" | ".join(name for name, few in valued.items() if not few and name not in files),
    )


def zsh_quoted(text):
    return text.replace("'", "'\\''").replace("[", "\\[").replace("]", "\\]").replace(":", "\\:")


def zsh_option(name, form, value, does):
    """An option as `_arguments` takes it."""
    if "=" not in form:
        return f"'{name}[{zsh_quoted(brief(does))}]'"
    operand = form.split("=")[1]
    action = "_files" if operand == "FILE" else f"({' '.join(choices(value))})" if choices(value) else " "
    return f"'{'*' * (times(does)[1] > 1)}{name}=[{zsh_quoted(brief(does))}]:{operand}:{action}'"


def zsh_options(command):
    return "".join(zsh_option(name, *option) + " " for name, option in options(command).items())


def zsh():
    return filled(
        ZSH,
        commands=[f"        '{command}:{zsh_quoted(brief(does))}'" for command, (_, does) in commands().items()],
        options=[f"        {command}) _arguments {zsh_options(command)}'*:file:_files' ;;" for command in commands()],
    )


def roff(text):
    """A cell as a man page has it: what stands in backticks is bold."""
    text = re.sub(r"\[([^]]*)\]\([^)]*\)", r"\1", text).replace("\\", "\\e").replace("-", "\\-")
    text = re.sub(r"`([^`]*)`", lambda it: f"\\fB{it[1]}\\fR", text)
    return "\\&" + text if text[:1] in (".", "'") else text


def entries(pairs):
    return [line for head, texts in pairs for line in (".TP", roff(head), roff("; ".join(text for text in texts if text)) or "\\&")]


def section(title):
    """The text of a section of the page between its title and the next, without tables."""
    page = (SHELL.parent / "docs/COMMANDS.md").read_text()
    body = re.search(rf"^## {title}\n(.*?)(?=^## |\Z)", page, re.M | re.S)[1]
    lines = [line for line in body.split("\n") if not line.startswith(("|", "    "))]
    for paragraph in re.split(r"\n\n+|\n(?=- )", "\n".join(lines)):
        if paragraph.strip():
            yield from [".PP", roff(" ".join(re.sub("^- ", "", paragraph).split()))]


def man():
    synopsis = [line for command, (operands, _) in commands().items() for line in (f".B ehc {command}", roff(" ".join(operands + ["[OPTION]..."])), ".br")]
    return "\n".join([
        f'.\\" {NOTE}',
        ".TH EHC 1 \"\" \"ehc\" \"User commands\"",
        ".SH NAME",
        "ehc \\- compile C++ exceptions for RISC\\-V, run what was compiled, and judge exception tables",
        ".SH SYNOPSIS",
        *synopsis[:-1],
        ".SH COMMANDS",
        *entries((row[0], row[1:]) for row in rows("COMMANDS.md", "Commands")),
        *section("Commands"),
        ".SH OPTIONS",
        *entries((row[0], [f"for {row[1]}", row[2], row[3]]) for row in rows("COMMANDS.md", "Options")),
        *section("Options"),
        ".SH SCHEDULES",
        *section("Schedules"),
        *entries((f"refused {row[0]}", row[1:]) for row in rows("COMMANDS.md", "Schedules")),
        ".SH ENDS",
        *entries((row[0], row[1:]) for row in rows("COMMANDS.md", "Ends")),
        ".SH EXIT STATUS",
        *section("Statuses"),
        *entries((row[0], row[1:]) for row in rows("COMMANDS.md", "Statuses")),
        ".SH PLACES",
        *section("Places"),
        ".SH AT THE TERMINAL",
        *section("At the terminal"),
        "",
    ])


MADE = {"ehc.bash": bash, "_ehc": zsh, "ehc.1": man}


def main():
    wrong = 0
    for name, make in MADE.items():
        file = SHELL / name
        if sys.argv[1:] != ["check"]:
            file.write_text(make())
        elif not file.exists() or file.read_text() != make():
            print(f"shell/{name} is not what docs/COMMANDS.md makes: python3 tell/made.py", file=sys.stderr)
            wrong = 1
    return wrong


if __name__ == "__main__":
    sys.exit(main())
