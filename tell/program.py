"""The program that `./ehc` runs, asked by the scripts beside it."""
import atexit
import os
import pathlib
import shutil
import subprocess
import sys
import tempfile

TOP = pathlib.Path(__file__).resolve().parent.parent


def program():
    """What is run: the program that the launcher chose, or else the launcher."""
    return os.environ.get("EHC_PROGRAM") or str(TOP / "ehc")


def ran(command, name):
    """A command over a file that has ended: its status, its lines, and its words on standard error, with the name that the user gave."""
    file = file_of(name)
    done = subprocess.run([program(), command, "--", file], stdout=subprocess.PIPE, stderr=subprocess.PIPE, encoding="utf-8", errors="replace")
    return done.returncode, done.stdout, done.stderr.replace(file, name)


def file_of(name):
    """The file that a name on the command line is of: for `-` a copy of standard input, so that it can be read twice."""
    if name == "-" and not os.environ.get("EHC_INPUT"):
        with tempfile.NamedTemporaryFile(delete=False) as file:
            shutil.copyfileobj(sys.stdin.buffer, file)
        os.environ["EHC_INPUT"] = file.name
        atexit.register(os.unlink, file.name)
    return os.environ["EHC_INPUT"] if name == "-" else name


def ends_quietly(main):
    """Runs a script; where who reads its output reads no more, it ends in silence, as its status says. What the terminal can't show is a question mark."""
    for stream in (sys.stdout, sys.stderr):
        stream.reconfigure(errors="replace")
    try:
        status = main()
        sys.stdout.flush()
    except OSError as error:
        # what is left to be printed goes nowhere
        os.dup2(os.open(os.devnull, os.O_WRONLY), 1)
        if not isinstance(error, BrokenPipeError):
            print(f"{pathlib.Path(sys.argv[0]).name}: {error.strerror}", file=sys.stderr)
        status = 5
    except KeyboardInterrupt:
        status = 130
    sys.exit(status)
