"""Running bendsolve, and having it made where it is missing."""

import os
import shutil
import signal
import subprocess
import sys

from . import answers, binary, validation
from .problem import BadInput

ROOT = os.path.dirname(os.path.dirname(os.path.dirname(os.path.abspath(__file__))))
PROGRAM = os.path.join(ROOT, "target", "bin", "bendsolve")
MAKE = os.path.join(ROOT, "tools", "program.sh")
# A solve takes milliseconds at most.
SECONDS = 60
# How much of what a failing rt said is shown.
LINES_SHOWN = 20


def found(program=None):
    """The program's path. Where target/bin/bendsolve is missing tools/program.sh has the kit's rt prove and build it."""
    if program:
        path = shutil.which(program)
        if not path:
            raise BadInput(f"{program}: no such program; expected bendsolve")
        return path
    if not os.path.exists(PROGRAM):
        _make()
    return PROGRAM


def _make():
    if not shutil.which("rt"):
        raise BadInput(f"{PROGRAM} is missing, and so is rt, which makes it; expected the Rattle kit's rt on the PATH, or --solver PROGRAM")
    print("bend.py: target/bin/bendsolve is missing; tools/program.sh proves and builds it, which takes some minutes", file=sys.stderr, flush=True)
    status, said = _quietly([MAKE])
    if status or not os.path.exists(PROGRAM):
        print("".join(said[-LINES_SHOWN:]), end="", file=sys.stderr)
        raise BadInput(f"tools/program.sh ended with {status} and made no {PROGRAM}; the end of what it said is above")


def _quietly(command):
    """Runs a command that runs the kit: rt's own lines, one a crate, go to standard error, and the prover's are kept."""
    said = []
    streams = {"stdin": subprocess.DEVNULL, "stdout": subprocess.PIPE, "stderr": subprocess.STDOUT}
    with subprocess.Popen(command, cwd=ROOT, text=True, errors="replace", **streams) as child:
        for line in child.stdout:
            said.append(line)
            if line.startswith("rt: "):
                print(line, end="", file=sys.stderr, flush=True)
    return child.returncode, said


def solve(program, problem):
    """The answer to one step, as its bytes and read; held against the step like any other answer."""
    try:
        ended = subprocess.run([program], input=binary.encode(problem), stdout=subprocess.PIPE, stderr=subprocess.PIPE, timeout=SECONDS, check=False)
    except OSError as wrong:
        raise BadInput(f"{program}: cannot be run: {wrong.strerror}") from None
    except subprocess.TimeoutExpired:
        raise BadInput(f"{program}: gave no answer within {SECONDS} seconds") from None
    if ended.returncode < 0:
        name = next((s.name for s in signal.Signals if s == -ended.returncode), f"signal {-ended.returncode}")
        raise BadInput(f"{program}: was ended by {name}; there is no answer")
    if ended.returncode or ended.stderr:
        said = ended.stderr.decode("utf-8", errors="replace").strip().splitlines()
        raise BadInput(f"{program}: ended with {ended.returncode}{': ' + said[0] if said else ''}; there is no answer")
    try:
        answer = answers.read(ended.stdout)
        validation.check(answer, problem)
    except BadInput as wrong:
        raise BadInput(f"{program}: {wrong} (is it bendsolve?)") from None
    return ended.stdout, answer
