"""Colours for light and dark pages, and the heads of arrows. The three kinds differ in colour, in the head and in the word."""

# Each class: what it paints, its colour on a light page, its colour on a dark one.
COLOURS = (
    (".page", "fill", "#ffffff", "#0d1117"),
    (".plate", "fill", "#ffffff", "#0d1117"),
    (".band", "fill", "#f5f7fa", "#151b23"),
    ("text", "fill", "#14181f", "#e6edf3"),
    (".quiet", "fill", "#57606a", "#9aa6b2"),
    (".copy-text", "fill", "#0063a8", "#6cb6ff"),
    (".dec-text", "fill", "#a84300", "#ffa657"),
    (".inc_dec-text", "fill", "#5a0a3c", "#f9d0f2"),
    (".bad", "fill", "#b00020", "#ff8a80"),
    (".good", "fill", "#00703c", "#4cd08a"),
    (".halo", "stroke", "#ffffff", "#0d1117"),
    (".copy", "stroke", "#0077c8", "#3d98ff"),
    (".dec", "stroke", "#d55e00", "#f58a1f"),
    (".inc_dec", "stroke", "#5a0a3c", "#f9d0f2"),
    (".copy-head", "fill", "#0077c8", "#3d98ff"),
    (".dec-head", "stroke", "#d55e00", "#f58a1f"),
    (".dec-head", "fill", "#ffffff", "#0d1117"),
    (".inc_dec-head", "fill", "#5a0a3c", "#f9d0f2"),
    (".lane", "stroke", "#a9b4c0", "#4b5662"),
    (".strip", "stroke", "#d0d7de", "#30363d"),
    (".holds", "fill", "#8fd0ae", "#1f6f4a"),
    (".dot", "fill", "#14181f", "#e6edf3"),
    (".cross, .ring, .bar", "stroke", "#b00020", "#ff8a80"),
    (".ring", "fill", "#ffffff", "#0d1117"),
    (".no", "stroke", "#57606a", "#9aa6b2"),
    (".no", "fill", "#ffffff", "#0d1117"),
    (".yes", "fill", "#00703c", "#4cd08a"),
    (".yes-text", "fill", "#ffffff", "#06210f"),
)

FIXED = """
text{font-family:system-ui,-apple-system,"Segoe UI","Helvetica Neue",Arial,"DejaVu Sans",sans-serif;font-size:13px}
.big{font-size:17px;font-weight:700}.mid{font-size:12px}.small{font-size:11px}.strong{font-weight:700}
.plate{fill-opacity:.88}.halo{paint-order:stroke;stroke-width:4px;stroke-linejoin:round}
.arrow path{fill:none;stroke-width:2px}.arrow .inc_dec{stroke-width:2.6px}.arrow.open path.stem{stroke-dasharray:6 5}
.arrow .wide{stroke:transparent;stroke-width:12px}.arrow:hover path.stem{stroke-width:4px}
.lane,.holds{pointer-events:none}.labels,.dot,.counter{pointer-events:none}.lane{stroke-width:1.6px}.strip{stroke-width:1px;stroke-dasharray:2 4}
.cross,.ring,.bar{fill:none;stroke-width:2.6px;stroke-linecap:round}.no{stroke-width:1.4px}
.dec-head{stroke-width:1.6px}
"""

# Heads: COPY a full triangle, DEC a hollow one, INC_DEC two full ones.
HEADS = {
    "copy": '<path class="copy-head" d="M0 0L12 5L0 10Z"/>',
    "dec": '<path class="dec-head" d="M1 1L11 5L1 9Z"/>',
    "inc_dec": '<path class="inc_dec-head" d="M0 0L8 5L0 10ZM7 0L16 5L7 10Z"/>',
}
TIPS = {"copy": 12, "dec": 11.5, "inc_dec": 16}


def style():
    """The style sheet: light, and dark where the reader's system asks for it."""
    light = "".join("%s{%s:%s}" % (name, what, day) for name, what, day, _ in COLOURS)
    dark = "".join("%s{%s:%s}" % (name, what, night) for name, what, _, night in COLOURS)
    return "<style>%s%s\n@media (prefers-color-scheme:dark){%s}</style>" % (light, FIXED, dark)


def heads():
    marker = ('<marker id="%s-head" markerUnits="userSpaceOnUse" markerWidth="18" markerHeight="12" refX="%s" refY="5"'
              ' orient="auto" overflow="visible">%s</marker>')
    return "<defs>%s</defs>" % "".join(marker % (name, TIPS[name], path) for name, path in HEADS.items())
