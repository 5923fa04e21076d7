"""The programs that answer cases, and how they are run."""
import os
import shlex
import subprocess
import sys

HERE = os.path.dirname(os.path.abspath(__file__))
KNOWN = {
    "driver": [HERE + "/target/release/driver"],
    "rules": [sys.executable, "-B", HERE + "/answer"],
}


def command(name, unformed=False):
    """The command of a program: driver, rules, or a command line."""
    found = KNOWN.get(name) or shlex.split(name)
    return found + ["--unformed"] if unformed and name == "driver" else found


def answers(name, cases, unformed=False):
    """The answers of a program to a list of case lines."""
    if not cases:
        return []
    run = subprocess.run(command(name, unformed), input="\n".join(cases) + "\n",
                         stdout=subprocess.PIPE, text=True)
    got = run.stdout.split("\n")[:-1]
    if run.returncode != 0 or len(got) != len(cases):
        raise SystemExit("%s: status %d, %d answers to %d cases"
                         % (name, run.returncode, len(got), len(cases)))
    return got
