"""The drawing of the set-up of shaft-six-pads, from the same places and gaps as its numbers."""

from xml.sax.saxutils import escape

import rig

WIDTH, HEIGHT = 800, 345
LEFT, RIGHT = 90, 720
SHAFT = 130
# Gaps are drawn this many times larger than the lengths along the shaft, or they could not be seen.
GAP_PIXELS = 5.0
INK, BLUE, BROWN, RED = "#222222", "#0072B2", "#8A5A2B", "#B00020"


def along(place):
    return LEFT + (RIGHT - LEFT) * place / rig.BLADE_END


def text(x, y, words, size=12, anchor="middle", fill=INK, bold=False):
    weight = ' font-weight="bold"' if bold else ""
    return f'<text x="{x:.1f}" y="{y:.1f}" font-size="{size}" text-anchor="{anchor}" fill="{fill}"{weight}>{escape(words)}</text>'


def line(x1, y1, x2, y2, colour=INK, width=1.0, dash=""):
    dashes = f' stroke-dasharray="{dash}"' if dash else ""
    return f'<line x1="{x1:.1f}" y1="{y1:.1f}" x2="{x2:.1f}" y2="{y2:.1f}" stroke="{colour}" stroke-width="{width}"{dashes}/>'


def rect(x, y, width, height, fill, stroke=INK):
    return f'<rect x="{x:.1f}" y="{y:.1f}" width="{width:.1f}" height="{height:.1f}" fill="{fill}" stroke="{stroke}"/>'


def chuck():
    return [rect(LEFT - 60, SHAFT - 24, 60, 48, "#B8BDC4"), text(LEFT - 30, SHAFT + 42, "chuck")]


def pad(support):
    """A felt pad under the shaft, its top as far below as its gap says, with its name and its gap."""
    x, top = along(support.place), SHAFT + 6 + GAP_PIXELS * support.gap
    parts = [rect(x - 13, top, 26, 16, "#CFE3F2", BLUE), rect(x - 17, top + 16, 34, 6, "#B8BDC4")]
    parts.append(text(x, SHAFT + 106, support.name, bold=True))
    return parts + [text(x, SHAFT + 122, f"gap {support.gap:g}", size=11)]


def stop(support):
    """A friction stop: a leather cheek on the shaft's side, drawn over it."""
    x = along(support.place)
    parts = [rect(x - 8, SHAFT - 20, 16, 40, "#E6C9A8", BROWN)]
    parts.append(text(x, SHAFT - 44, support.name, bold=True))
    return parts + [text(x, SHAFT - 28, f"holds up to {support.bound:g} N", size=11)]


def ram(load):
    x = along(rig.BLADE_END)
    arrow = f'<path d="M{x - 7:.1f} {SHAFT - 20} L{x:.1f} {SHAFT - 6} L{x + 7:.1f} {SHAFT - 20} Z" fill="{RED}"/>'
    return [line(x, SHAFT - 70, x, SHAFT - 18, RED, 3), arrow, text(x, SHAFT - 78, f"ram {load:g} N", fill=RED, bold=True)]


def ruler(supports):
    """The places along the shaft, in mm from the chuck; friction stops' places on a line of their own."""
    y = SHAFT + 146
    parts = [line(LEFT, y, RIGHT, y), text(LEFT - 8, y + 4, "x (mm)", size=11, anchor="end")]
    for place in [0, *(s.place for s in supports), rig.BLADE_END]:
        lower = any(s.friction and s.place == place for s in supports)
        parts.append(line(along(place), y - 4, along(place), y + (18 if lower else 4)))
        parts.append(text(along(place), y + (31 if lower else 17), str(place), size=11))
    return parts


def sentence(support):
    """A pad or stop in words, for a reader who hears the drawing."""
    holds = f"holding up to {support.bound:g} N" if support.friction else f"with a gap of {support.gap:g} mm"
    return f"{support.name} at {support.place} mm {holds}"


def set_up(supports, load):
    title = "The set-up of shaft-six-pads"
    what = "A shaft, clamped in a chuck on the left, lies over six felt pads and between two friction stops; a ram presses its blade end down."
    summary = f"{what} {', '.join(map(sentence, supports))}."
    body = chuck()
    body.append(rect(LEFT, SHAFT - 6, RIGHT - LEFT + 30, 12, "#EFEFEF"))
    for support in supports:
        body += stop(support) if support.friction else pad(support)
    body += ram(load) + ruler(supports)
    body.append(text(WIDTH / 2, HEIGHT - 10, "Gaps in mm, drawn larger than the lengths along the shaft.", size=11))
    head = (
        f'<svg xmlns="http://www.w3.org/2000/svg" width="{WIDTH}" height="{HEIGHT}" viewBox="0 0 {WIDTH} {HEIGHT}" role="img" '
        'aria-labelledby="set-up-title set-up-summary" font-family="DejaVu Sans, Verdana, Helvetica, Arial, sans-serif">'
    )
    names = f'<title id="set-up-title">{title}</title>\n<desc id="set-up-summary">{escape(summary)}</desc>'
    background = f'<rect width="{WIDTH}" height="{HEIGHT}" fill="#FFFFFF"/>'
    return "\n".join([head, names, background, *body, "</svg>"]) + "\n"
