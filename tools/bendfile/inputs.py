"""Reading what a command is given. Every input has a limit, so that a wrong name such as /dev/zero gets a message and not all of the memory."""

import re
import sys

from . import answers, binary, chain, pull, validation
from .problem import LARGEST_FILE, BadInput
from .tables import counted

# The largest description that means anything has some 1 MiB; an answer has at most 1,657 bytes.
LARGEST_DESCRIPTION = 1 << 24
LARGEST_ANSWERS = 1 << 20

_ANSWER = re.compile(rb"(?:solved|infeasible|refused)\b")


def shown(path):
    """How a message names an input."""
    return "standard input" if path == "-" else path


def read(path, most):
    """A file's bytes; `-` is standard input. Of a file with more than `most` bytes, one byte more than that."""
    try:
        if path == "-":
            if sys.stdin is None:
                raise BadInput("standard input: cannot be read: it is closed")
            return sys.stdin.buffer.read(most + 1)
        with open(path, "rb") as file:
            return file.read(most + 1)
    except OSError as wrong:
        raise BadInput(f"{shown(path)}: cannot be read: {wrong.strerror}") from None


def bounded(path, most, what):
    """A file's bytes, refused where there are more than `most`."""
    data = read(path, most)
    if len(data) > most:
        raise BadInput(f"{shown(path)}: found over {most} bytes; expected {what} of at most that")
    return data


def named(path, call, *arguments):
    """Calls with the file's name in front of what goes wrong."""
    try:
        return call(*arguments)
    except BadInput as wrong:
        raise BadInput(f"{shown(path)}: {wrong}") from None


def bend_file(path):
    """A bend file's bytes, found to be one."""
    data = read(path, LARGEST_FILE)
    named(path, binary.decode, data)
    return data


def pulls(paths):
    """The steps in bend files and pulls, in their order, as one pull."""
    return pull.together([named(path, pull.read, read(path, chain.LARGEST_PULL)) for path in paths])


def steps(paths):
    """Answers and the steps that they answer: first the answers, then the bend files or the pull, or no file at all.

    Which argument is which is told by what it begins with and not by its name. A file may hold several answers, and each is read once, since
    a pipe can be read no more than once."""
    contents = [(path, read(path, max(LARGEST_ANSWERS, chain.LARGEST_PULL))) for path in paths]
    many = 1
    while many < len(contents) and _ANSWER.match(contents[many][1]):
        many += 1
    found = [(path, answer) for path, data in contents[:many] for answer in named(path, _answers, data)]
    # A file that bendsolve refused may be one that cannot be read here either; its answer is shown all the same.
    if many == len(paths) or (len(found) == 1 and found[0][1].outcome == "refused"):
        return None, [answer for _, answer in found]
    answered = pull.together([named(path, pull.read, data) for path, data in contents[many:]])
    if len(found) != len(answered.problems):
        given = f"{counted(len(found), 'answer')} to {counted(len(answered.problems), 'step')}"
        raise BadInput(f"{shown(paths[-1])}: found {given}; expected one per step")
    for (path, answer), problem in zip(found, answered.problems):
        named(path, validation.check, answer, problem)
    return answered, [answer for _, answer in found]


def _answers(data):
    if len(data) > LARGEST_ANSWERS:
        raise BadInput(f"found over {LARGEST_ANSWERS} bytes; expected answers of at most that")
    return answers.read_all(data)
