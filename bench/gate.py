#!/usr/bin/env python3
"""What the gate costs, by crate: `gate.py [NAME..]` runs `rt ci NAME..` at the top and adds up the processor time of each proof, of tests, of edits, and of
the proof that several edits of one crate begin with. `gate.py --anew --write` proves all, whatever is kept, and puts the table into README.md, which has its place between two marks.

What this machine has kept is not proved again and costs nothing, so a figure of the whole needs a machine that has kept nothing. The prover's
processes are looked at every two seconds; what ends between two looks is counted up to the last of them. Other provers on the machine are not counted.
"""
import collections
import os
import subprocess
import sys
import threading
import time

from building import TOP

TICK = os.sysconf("SC_CLK_TCK")
KINDS = ("proof", "tests", "seeds", "edits")
README = TOP / "bench/README.md"
MARKS = "<!-- the gate, by crate -->\n", "<!-- up to here -->\n"


def processes(session):
    """The prover's processes of a session: number, command, processor seconds, folder."""
    for number in filter(str.isdigit, os.listdir("/proc")):
        try:
            with open(f"/proc/{number}/cmdline", "rb") as it:
                command = it.read().decode(errors="replace").split("\0")
            if os.path.basename(command[0]) != "rattle" or "--crate-name" not in command:
                continue
            with open(f"/proc/{number}/stat") as it:
                fields = it.read().rsplit(")", 1)[1].split()
            if int(fields[3]) == session:
                yield number, command, (int(fields[11]) + int(fields[12])) / TICK, os.readlink(f"/proc/{number}/cwd")
        except (OSError, IndexError):
            continue


def kind_of(command, folder):
    if "rt-edits-" in folder:
        return "seeds"
    if "rt-edit-" in folder:
        return "edits"
    return "tests" if "--test" in command else "proof"


class Watch(threading.Thread):
    """Adds up the seconds of each process by its crate and kind, until it is stopped."""

    def __init__(self, session):
        super().__init__(daemon=True)
        self.session = session
        self.costs = collections.defaultdict(lambda: dict.fromkeys(KINDS, 0.0))
        self.last = {}
        self.stopped = threading.Event()

    def run(self):
        while not self.stopped.wait(2):
            for number, command, seconds, folder in processes(self.session):
                crate = command[command.index("--crate-name") + 1]
                key = (number, crate)
                self.costs[crate][kind_of(command, folder)] += max(seconds - self.last.get(key, 0.0), 0.0)
                self.last[key] = seconds


def table(costs, minutes):
    """The lines of a table, the dearest crate first."""
    yield f"{'crate':24}" + "".join(f"{kind:>9}" for kind in KINDS) + "   processor seconds"
    for crate, found in sorted(costs.items(), key=lambda it: -sum(it[1].values())):
        yield f"{crate:24}" + "".join(f"{found[kind]:9.0f}" for kind in KINDS)
    sums = [sum(found[kind] for found in costs.values()) for kind in KINDS]
    yield f"{'in all':24}" + "".join(f"{it:9.0f}" for it in sums) + f"   {sum(sums) / 60:.0f} processor minutes, {minutes:.0f} minutes on {os.cpu_count()} processors"


def write(lines):
    """Puts the lines into README.md, between the marks."""
    text = README.read_text()
    before, _, rest = text.partition(MARKS[0])
    _, _, behind = rest.partition(MARKS[1])
    block = "\n".join(lines)
    README.write_text(f"{before}{MARKS[0]}```\n{block}\n```\n{MARKS[1]}{behind}")


def main():
    begun = time.monotonic()
    names = [it for it in sys.argv[1:] if it != "--write"]
    gate = subprocess.Popen(["rt", "ci", *names], cwd=TOP, start_new_session=True)
    watch = Watch(gate.pid)
    watch.start()
    status = gate.wait()
    whole = time.monotonic() - begun
    watch.stopped.set()
    watch.join()
    lines = list(table(watch.costs, whole / 60))
    print("\n" + "\n".join(lines))
    if "--write" in sys.argv and not status and all(it.startswith("--") for it in names):
        write(lines)
    return status


sys.exit(main())
