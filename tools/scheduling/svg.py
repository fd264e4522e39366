"""Elements of an SVG, one on each line."""

from xml.sax.saxutils import escape, quoteattr

# Plain fonts and a background of its own, so that it is legible on a white and on a dark page.
STYLE = """
text { font-family: Helvetica, Arial, sans-serif; font-size: 11px; fill: #222 }
.lane { font-size: 13px; font-weight: bold }
.heading { font-size: 15px; font-weight: bold }
.small, .part { font-size: 9px; fill: #666 }
.middle { text-anchor: middle }
.title { font-weight: bold }
.title, .told, .line { paint-order: stroke; stroke: #fff; stroke-width: 4px }
.line, .digit, .letters { font-family: "DejaVu Sans Mono", Menlo, Consolas, monospace }
.digit { font-size: 10px; text-anchor: middle }
.grid { stroke: #e6e6e6 }
.rail { stroke: #bbb }
.leader { stroke: #999; stroke-dasharray: 2 2 }
.count { fill: #d6e6f7; stroke: #2a6aa8 }
.record { fill: #fbe3cb; stroke: #b5651d }
.plain { stroke: none }
.accepted { fill: #f2b877; stroke: #b5651d }
.unequal { fill: url(#hatch); stroke: #b5651d }
.box { fill: #fff }
.start { stroke: none; fill: #222 }
.cross { stroke: #b00020; stroke-width: 2.5 }
.refused { stroke: #e9a3ad; stroke-dasharray: 4 3 }
.wrong { fill: #b00020 }
.order { fill: #222 }
.nth { fill: #fff; font-weight: bold; text-anchor: middle }
"""
HATCH = ('<pattern id="hatch" width="6" height="6" patternUnits="userSpaceOnUse" patternTransform="rotate(45)">'
         '<rect width="6" height="6" fill="#fff"/>'
         '<line x1="0" y1="0" x2="0" y2="6" stroke="#d9a36b" stroke-width="1.5"/></pattern>')


def element(name, css, content=None, **attributes):
    told = "".join(" %s=%s" % (key, quoteattr(shown(value))) for key, value in attributes.items())
    head = '<%s class="%s"%s' % (name, css, told)
    return head + "/>" if content is None else "%s>%s</%s>" % (head, escape(content), name)


def shown(value):
    """A number without needless digits."""
    return "%g" % round(value, 1) if isinstance(value, (int, float)) else value


def text(css, x, y, content):
    return element("text", css, content, x=x, y=y)


def line(css, x1, y1, x2, y2):
    return element("line", css, x1=x1, y1=y1, x2=x2, y2=y2)


def rect(css, x, y, width, height):
    return element("rect", css, x=x, y=y, width=width, height=height)


def cross(x, y, half=5):
    return [line("cross", x - half, y - up, x + half, y + up) for up in (half, -half)]


def start(x, y):
    return element("path", "start", d="M%g %g l10 5 l-10 5 z" % (x - 4, y - 5))


def numbered(x, y, nth):
    return [element("circle", "order", cx=x, cy=y, r=8), text("nth", x, y + 4, str(nth))]


def document(width, height, title, desc, elements):
    head = ['<svg xmlns="http://www.w3.org/2000/svg" width="%g" height="%g" viewBox="0 0 %g %g" role="img">'
            % (width, height, width, height),
            "<title>%s</title>" % escape(title), "<desc>%s</desc>" % escape(desc),
            "<style>%s</style>" % STYLE, "<defs>%s</defs>" % HATCH,
            '<rect width="%g" height="%g" fill="#fff"/>' % (width, height)]
    return "\n".join(head + elements + ["</svg>"]) + "\n"
