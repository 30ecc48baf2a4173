"""The little of Markdown that the documents here use, as HTML: headings, paragraphs, lists and
tables, and within a line code, links and words that are set apart. Remarks are left out."""
import html
import re

INLINE = re.compile(r"`([^`]+)`|\[([^\]]+)\]\(([^)\s]+)\)|\*\*([^*]+)\*\*")
REMARK = re.compile(r"<!--.*?-->", re.S)


def section(text, title):
    """What stands below a heading of the second level, up to the next one; None where there is no
    such heading."""
    found = re.search(rf"(?ms)^## {re.escape(title)}\n(.*?)(?=^## |\Z)", text)
    return found and found[1].strip()


def code(text):
    return f"<code>{html.escape(text)}</code>"


def inline(text, name=code, link=None):
    """A line as HTML. `name` makes it of code, `link` of a link's words and of what it leads to."""
    def made(found):
        if found[1] is not None:
            return name(found[1])
        if found[4] is not None:
            return f"<b>{html.escape(found[4])}</b>"
        return link(found[2], found[3]) if link else html.escape(found[2])

    parts, at = [], 0
    for found in INLINE.finditer(text):
        parts += [html.escape(text[at:found.start()]), made(found)]
        at = found.end()
    return "".join(parts) + html.escape(text[at:])


def cells(row):
    """The cells of a row of a table."""
    return [cell.strip() for cell in row.strip().strip("|").split("|")]


def tables(text):
    """The tables, each as its rows of cells; the first row is the head."""
    found, rows = [], []
    for line in [*text.split("\n"), ""]:
        if line.startswith("|"):
            rows.append(cells(line))
        elif rows:
            found.append([rows[0], *rows[2:]])
            rows = []
    return found


def table(block, line):
    head, *rows = tables(block)[0]
    return "".join(["<table><thead><tr>", *(f"<th>{line(cell)}</th>" for cell in head),
                    "</tr></thead><tbody>",
                    *("<tr>" + "".join(f"<td>{line(cell)}</td>" for cell in row) + "</tr>"
                      for row in rows), "</tbody></table>"])


def listed(block, line):
    kind = "ol" if block[0].isdigit() else "ul"
    items = re.split(r"(?m)^(?:- |\d+\. )", block)[1:]
    return f"<{kind}>" + "".join(f"<li>{line(' '.join(item.split()))}</li>"
                                 for item in items) + f"</{kind}>"


def to_html(text, name=code, link=None):
    def line(words):
        return inline(words, name, link)

    found = []
    for block in re.split(r"\n\s*\n", REMARK.sub("", text).strip()):
        title = re.fullmatch(r"(#+) (.*)", block)
        if title:
            level = len(title[1])
            found.append(f"<h{level}>{line(title[2])}</h{level}>")
        elif block.startswith("|"):
            found.append(table(block, line))
        elif re.match(r"- |\d+\. ", block):
            found.append(listed(block, line))
        elif block:
            found.append(f"<p>{line(' '.join(block.split()))}</p>")
    return "\n".join(found)
