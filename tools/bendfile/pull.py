"""The load steps of a pull: their problems, and their rows followed over the steps."""

from dataclasses import dataclass

from . import binary, chain
from .problem import BadInput, Labels


@dataclass
class Pull:
    """A pull's steps, oldest first, and how many bytes each has. `whole` is false of one bend file that stands alone."""

    problems: list
    sizes: list
    whole: bool = True

    def titles(self):
        return [problem.labels.title for problem in self.problems]

    def names(self):
        """The rows' names, each once, in the order in which the steps bring them."""
        return list(dict.fromkeys(p.name(i) for p in self.problems for i in range(p.rows)))

    def rows(self, name):
        """Which row of each step has this name; None where a step has no such row."""
        named = [[p.name(i) for i in range(p.rows)] for p in self.problems]
        return [names.index(name) if name in names else None for names in named]

    def unit(self, which):
        """The unit of loads or motions. Numbers in two units cannot stand in one column or on one axis."""
        known = [(getattr(p.labels, which), i) for i, p in enumerate(self.problems, 1) if getattr(p.labels, which)]
        for unit, step in known:
            if unit != known[0][0]:
                raise BadInput(f"step {step} has the unit {unit}, step {known[0][1]} {known[0][0]}; expected one unit over a pull")
        return known[0][0] if known else ""


def read_chain(data):
    """A pull in a chained file. Free bytes of any number are taken: document 01's length binds only a step that is a file of its own."""
    places = chain.steps(data)
    problems = [binary.decode(part) for part in chain.cut(data, free=False)]
    for problem, place in zip(problems, places):
        problem.before = data[place.linked : place.numbers - chain.LINK]
        problem.labels = binary.read_labels(problem.before, problem.rows, len(problem.motion)) or Labels()
    return Pull(problems, [place.end - place.linked for place in places])


def read(data):
    """A pull, or a single bend file as a pull of one step.

    No file is a bend file and a chain of several steps at once: the start of a chain's newest step counts from the step before. A chain of
    one step is a bend file too, and is read as one.
    """
    try:
        return Pull([binary.decode(data)], [len(data)], whole=False)
    except BadInput as wrong:
        alone = str(wrong)
    try:
        return read_chain(data)
    except BadInput as wrong:
        chained = str(wrong)
    # Mark, sizes and count of the newest step are those of a single file; to tell them twice would help nobody.
    raise BadInput(alone if chained == f"the newest step: {alone}" else f"{alone}; as a pull: {chained}")


def together(pulls):
    """Several files of one pull, in their order."""
    if len(pulls) == 1:
        return pulls[0]
    return Pull([p for one in pulls for p in one.problems], [size for one in pulls for size in one.sizes])
