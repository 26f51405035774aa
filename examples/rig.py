"""The rig of the examples: a shaft in a chuck, pads and stops along it, a ram at its blade end.

The shaft is an Euler-Bernoulli beam, clamped in the chuck at x = 0. Lengths are in mm, loads in N, motions in mm, upwards positive. A unit load
at `a` moves the shaft at `x` by the influence coefficient of a cantilever. A pad or stop gives way by its own compliance, which adds to its own
entry of the matrix, so the matrix is symmetric and positive semi-definite.
"""

import os
import sys
from dataclasses import dataclass

sys.path.insert(0, os.path.join(os.path.dirname(os.path.abspath(__file__)), "..", "tools"))

from bendfile import numbers  # noqa: E402
from bendfile.describe import LABELS_BEFORE, Description  # noqa: E402
from bendfile.problem import Labels  # noqa: E402

# A sculling shaft that gives 34 mm at 2.06 m under 10 kg has about this bending stiffness, N mm^2.
STIFFNESS = 8.4e9
BLADE_END = 2000
COORDINATES = (("mid shaft", 1000), ("blade end", BLADE_END))
PAD_SCALE = 100
# Sweeps may stop once no coordinate moves by more than this, mm.
TOLERANCE = 1e-6
FELT, LEATHER, STEEL = 0.02, 0.004, 0.0


@dataclass
class Support:
    """A pad or a stop. `gap` is a contact's distance from the unloaded shaft; `direction` is -1 for one that pushes down from above."""

    name: str
    place: int
    compliance: float
    bound: float = 0.0
    gap: float = 0.0
    direction: int = 1

    @property
    def friction(self):
        return self.bound > 0


def pad(number, place, gap):
    return Support(f"pad {number}", place, FELT, gap=gap)


def six_pads():
    """Felt pads on a line that falls towards the blade end, as a bending shaft does."""
    gaps = (0.4, 1.6, 3.0, 5.0, 8.0, 11.0)
    return [pad(i + 1, 300 * (i + 1), gap) for i, gap in enumerate(gaps)]


def friction_stops():
    """Leather cheeks that grip the shaft: one near the chuck, one in its outer half."""
    return [Support("stop A", 150, LEATHER, bound=25.0), Support("stop B", 1350, LEATHER, bound=20.0)]


def influence(x, a):
    """How far a cantilever moves at `x` under a unit load at `a`, mm per N."""
    near, far = min(x, a), max(x, a)
    return near * near * (3 * far - near) / (6 * STIFFNESS)


def entry(one, other):
    """An entry of the matrix: the motion of `one` for a unit load on `other`."""
    own = one.compliance if one is other else 0.0
    return one.direction * other.direction * influence(one.place, other.place) + own


def free_motion(support, ram, anchor):
    """Where the row stands with no pad or stop acting: a contact's gap, or how far the shaft has moved past where a friction stop grips it."""
    moved = -ram * influence(support.place, BLADE_END)
    return moved - anchor if support.friction else support.gap + support.direction * moved


def text(value):
    """A number to six decimals, a nanometre per newton: more would say nothing of a real shaft. Adding 0.0 turns -0.0 into 0."""
    return numbers.exact(numbers.to_bits(round(value, 6) + 0.0))


def row(support, ram, anchor, start):
    record = {"name": support.name, "kind": "friction" if support.friction else "contact"}
    if support.friction:
        record["bound"] = text(support.bound)
    record["scale"] = text(support.bound if support.friction else PAD_SCALE)
    record["start"] = text(start)
    record["free_motion"] = text(free_motion(support, ram, anchor))
    return record


def load_step(title, supports, ram, anchors=None, start=None):
    """One load step as a description. `anchors` is where each friction stop grips the shaft, `start` the loads to begin from."""
    anchors = anchors or {}
    start = start or [0.0] * len(supports)
    return Description(
        rows=[row(s, ram, anchors.get(s.name, 0.0), v) for s, v in zip(supports, start)],
        matrix=[[text(entry(one, other)) for other in supports] for one in supports],
        motion=[[text(s.direction * influence(place, s.place)) for s in supports] for _, place in COORDINATES],
        tolerance=text(TOLERANCE),
        labels=Labels(title, "N", "mm", [s.name for s in supports], [name for name, _ in COORDINATES]),
        before_start=LABELS_BEFORE,
    )
