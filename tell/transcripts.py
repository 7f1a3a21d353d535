"""Runs the transcripts of docs/COMMANDS.md in a pseudo-terminal, and says which of them differ: `python3 tell/transcripts.py`.

A transcript is an indented block in which each command stands behind `$ `, and what the terminal shows behind it, its status too where that is not 0. A line
`...` stands for any number of lines, and in a line for any text. A command over a file of a package is run where EHC_LIBRARIES names the folder into which that was
unpacked.
"""
import fcntl
import os
import pathlib
import pty
import re
import select
import shutil
import signal
import struct
import subprocess
import sys
import tempfile
import termios
import time

TOP = pathlib.Path(__file__).resolve().parent.parent
PAGE = TOP / "docs/COMMANDS.md"
ROWS, COLUMNS, SECONDS = 24, 400, 120
OF_PACKAGES, LIBRARIES = "/usr/riscv64-linux-gnu/", os.environ.get("EHC_LIBRARIES", "")
SCRIPTS = ("ehc", "explain", "help", "show", "audit", "shell")


def transcripts():
    """Each command, in order, with the line of the page and what is to be shown."""
    found = None
    for number, line in enumerate(PAGE.read_text().splitlines(), 1):
        if line.startswith("    $ "):
            if found:
                yield found
            found = (number, line[6:], [])
        elif found and line.startswith("    "):
            found[2].append(line[4:])
        elif found:
            yield found
            found = None


def take_terminal():
    """In the new process: its standard input is the terminal that it belongs to."""
    fcntl.ioctl(0, termios.TIOCSCTTY, 0)


def read_all(ours, run):
    """All that comes to the terminal until the last process that has it ends; one that takes too long is ended."""
    taken, ends = b"", time.monotonic() + SECONDS
    while select.select([ours], [], [], max(0, ends - time.monotonic()))[0]:
        try:
            more = os.read(ours, 65536)
        except OSError:
            more = b""
        if not more:
            return taken
        taken += more
    os.killpg(run.pid, signal.SIGKILL)
    return taken + b"[no end]\n"


def shown(command, folder, columns=COLUMNS):
    """What a terminal shows of a command of bash."""
    ours, its = pty.openpty()
    fcntl.ioctl(its, termios.TIOCSWINSZ, struct.pack("HHHH", ROWS, columns, 0, 0))
    run = subprocess.Popen(["bash", "-c", command], stdin=its, stdout=its, stderr=its, cwd=folder, start_new_session=True, preexec_fn=take_terminal)
    os.close(its)
    taken = read_all(ours, run)
    os.close(ours)
    status = run.wait()
    lines = taken.decode(errors="replace").replace("\r\n", "\n").split("\n")
    return lines[: -1 if lines[-1] == "" else None] + ([f"[status {status}]"] if status else [])


def pattern(lines):
    """What is to be shown, as a regular expression over lines that each end with a line feed."""
    each = ["(?:.*\n)*" if line == "..." else ".*".join(map(re.escape, line.split("..."))) + "\n" for line in lines]
    return re.compile("".join(each))


def prepare(folder):
    """A folder in which the commands find what stands at the top."""
    for name in SCRIPTS:
        (folder / name).symlink_to(TOP / name)
    shutil.copytree(TOP / "examples", folder / "examples")


def main():
    ran = wrong = 0
    with tempfile.TemporaryDirectory() as name:
        prepare(pathlib.Path(name))
        for number, command, wanted in transcripts():
            if OF_PACKAGES in command and not LIBRARIES:
                continue
            found = shown(command.replace(OF_PACKAGES, f"{LIBRARIES}{OF_PACKAGES}"), name)
            ran += 1
            if not pattern(wanted).fullmatch("".join(f"{line}\n" for line in found)):
                wrong += 1
                print(f"{PAGE.relative_to(TOP)}:{number}: $ {command}", *found, "and not", *wanted, "", sep="\n")
    print(f"{ran - wrong} of {ran} transcripts are as a terminal shows them")
    return 0 if ran and not wrong else 1


if __name__ == "__main__":
    sys.exit(main())
