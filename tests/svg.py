"""The frame of a picture as SVG, and the colours and fonts of pictures."""

from html import escape

# Colours that can be seen on a white page and on a dark one. All text but labels is on a filled shape; labels have a colour for each.
LINE, WORD, NUMBER, RULE = "#8b949e", "#1f6feb", "#8250df", "#57606a"
# (a label may lie on a line: a rim of the page's colour keeps it legible)
LABELS = (
    "<style>.label{fill:#57606a;paint-order:stroke;stroke:#ffffff;stroke-width:3px}"
    "@media(prefers-color-scheme:dark){.label{fill:#b1bac4;stroke:#0d1117}}</style>"
)
REGION, ACCEPTED, REFUSED = "#1f6feb", "#2da44e", "#8b949e"
RETURNED = "#1a7f37"  # of a shape with white words
# Colours of words, by class: on a white page, and on a dark one. Each has a contrast of at least 4.5 to 1 with its page.
INKS = {
    "blue": ("#0969da", "#58a6ff"),
    "green": ("#1a7f37", "#3fb950"),
    "gold": ("#9a6700", "#d29922"),
    "purple": ("#8250df", "#a371f7"),
    "red": ("#cf222e", "#f85149"),
    "grey": ("#57606a", "#b1bac4"),
}
MONO = "ui-monospace, SFMono-Regular, Menlo, Consolas, 'DejaVu Sans Mono', monospace"
SANS = "system-ui, 'Segoe UI', Helvetica, Arial, 'DejaVu Sans', sans-serif"


def style_of_inks(parts):
    """The style of the inks that parts have."""
    used = [name for name in INKS if any(f'class="{name}"' in it for it in parts)]
    light, dark = ("".join(f".{name}{{fill:{INKS[name][page]}}}" for name in used) for page in (0, 1))
    return [f"<style>{light}@media(prefers-color-scheme:dark){{{dark}}}</style>"] if used else []


def svg(width, height, title, parts):
    """A picture of this size."""
    return "\n".join([
        f'<svg xmlns="http://www.w3.org/2000/svg" width="{width:g}" height="{height:g}"'
        f' viewBox="0 0 {width:g} {height:g}" role="img">',
        f"<title>{escape(title)}</title>",
        *([LABELS] if any('class="label"' in it for it in parts) else []),
        *style_of_inks(parts),
        *parts,
        "</svg>\n",
    ])
