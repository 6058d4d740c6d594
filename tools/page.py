"""A page of HTML that needs nothing but itself: no script, no file and no network."""
import re
from html import escape

STYLE = """
body { font: 15px/1.45 sans-serif; color: #222; max-width: 820px; margin: 24px auto; padding: 0 12px; }
h1 { font-size: 25px; margin: 0 0 4px; } h2 { font-size: 19px; margin: 30px 0 8px; border-bottom: 1px solid #bbb; }
h3 { font-size: 16px; margin: 20px 0 6px; }
table { border-collapse: collapse; margin: 8px 0; } caption { text-align: left; color: #555; }
th, td { border: 1px solid #ccc; padding: 3px 8px; text-align: left; vertical-align: top; }
th { background: #f2f2f2; } td.number { text-align: right; }
pre { background: #f7f7f7; border: 1px solid #ddd; padding: 8px; font-size: 12px; white-space: pre-wrap;
      overflow-wrap: anywhere; }
code { font-size: 13px; } td.sum code { overflow-wrap: anywhere; }
blockquote { margin: 8px 0; padding: 4px 14px; border-left: 3px solid #08519c; }
figure { margin: 12px 0; } figure svg { width: 100%; height: auto; } figcaption, .about { color: #555; }
nav { columns: 2; margin: 12px 0; } nav a { display: block; color: #08519c; }
@page { margin: 16mm; }
@media print {
  body { margin: 0; max-width: none; font-size: 9.5pt; } code { font-size: 8.5pt; } pre { font-size: 8pt; }
  nav a { color: #222; text-decoration: none; }
  figure svg { max-height: 230mm; } h2, h3 { break-after: avoid; } figure, tr, blockquote { break-inside: avoid; }
  * { print-color-adjust: exact; -webkit-print-color-adjust: exact; }
}
"""


def marked(words):
    """Words as HTML; what is between two backquotes is code."""
    return re.sub(r"`([^`]*)`", r"<code>\1</code>", escape(str(words), quote=False))


def paragraph(words, kind=""):
    return f'<p{named(kind)}>{marked(words)}</p>'


def named(kind):
    return f' class="{kind}"' if kind else ""


def items(rows, ordered=False):
    tag = "ol" if ordered else "ul"
    return "\n".join([f"<{tag}>", *(f"<li>{marked(it)}</li>" for it in rows), f"</{tag}>"])


class Cell:
    """A cell of a kind, with the line of a run that it was made from."""

    def __init__(self, words, line="", kind=""):
        self.words, self.line, self.kind = words, line, kind

    def html(self):
        line = f' data-line="{escape(self.line)}"' if self.line else ""
        return f'<td{named(self.kind)}{line}>{marked(self.words)}</td>'


def number(words, line=""):
    return Cell(words, line, "number")


def row(cells, kind=""):
    cells = [it if isinstance(it, Cell) else Cell(it) for it in cells]
    return f"<tr{named(kind)}>{''.join(it.html() for it in cells)}</tr>"


def table(heads, rows, caption=""):
    """A table of rows, which are lists of cells, or rows that are ready."""
    rows = [it if isinstance(it, str) else row(it) for it in rows]
    head = f"<tr>{''.join(f'<th>{marked(it)}</th>' for it in heads)}</tr>"
    said = f"<caption>{marked(caption)}</caption>" if caption else ""
    return "\n".join([f"<table>{said}<thead>{head}</thead><tbody>", *rows, "</tbody></table>"])


def figure(picture, about):
    return f"<figure>\n{picture.strip()}\n<figcaption>{marked(about)}</figcaption>\n</figure>"


def listing(words):
    return f"<pre>{escape(words, quote=False)}</pre>"


def page(title, about, sections):
    """The whole page. A section has an anchor, a heading and its parts."""
    links = [f'<a href="#{anchor}">{marked(heading)}</a>' for anchor, heading, _ in sections]
    body = [f'<h2 id="{anchor}">{marked(heading)}</h2>\n' + "\n".join(parts) for anchor, heading, parts in sections]
    return "\n".join([
        "<!DOCTYPE html>", '<html lang="en">', "<head>", '<meta charset="utf-8">',
        '<meta name="viewport" content="width=device-width, initial-scale=1">', f"<title>{marked(title)}</title>",
        f"<style>{STYLE}</style>", "</head>", "<body>", f"<h1>{marked(title)}</h1>", paragraph(about, "about"),
        "<nav>", *links, "</nav>", *body, "</body>", "</html>"]) + "\n"
