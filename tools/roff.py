# Text as the source of a man page: what has a meaning there is escaped, and the Markdown of docs/ becomes requests.

import re
import textwrap

WIDTH = 78  # of a line of source
TABLE_WIDTH = 66  # of a table that stands as one in a page of 80 columns; a wider one is a list
BULLET = r".IP \(bu 2"
ESCAPES = {"\\": r"\(rs", "^": r"\(ha", "~": r"\(ti"}
CODE_ESCAPES = {**ESCAPES, "-": r"\-", "'": r"\(aq", "`": r"\(ga"}
MARKUP = re.compile(r"`([^`]+)`|\*\*(.+?)\*\*|\[(.+?)\]\([^)]*\)|\b(LURM_\w+|lurm_\w+)")


# Escaping

def escaped(text, escapes=ESCAPES):
    return "".join(escapes.get(letter, letter) for letter in text)


def code(text):
    """Literal text: hyphens, quotes and accents stay what they are."""
    return escaped(text, CODE_ESCAPES)


def bold(text):
    return rf"\fB{code(text)}\fP"


def italic(text):
    return rf"\fI{escaped(text)}\fP"


def guarded(line):
    """A line of text that would be taken for a request begins with a mark of no width."""
    return r"\&" + line if line[:1] in (".", "'") else line


def marked(found):
    literal, term, link, name = found.groups()
    return bold(literal or name) if literal or name else italic(term) if term else inline(link)


def inline(text):
    """Words with the marks of Markdown: `literal`, **term**, [link](place). The names of the header are literal too."""
    done, at = [], 0
    for found in MARKUP.finditer(text):
        done += [escaped(text[at:found.start()]), marked(found)]
        at = found.end()
    return "".join(done) + escaped(text[at:])


def plain(text):
    """Words without their marks."""
    return MARKUP.sub(lambda found: next(group for group in found.groups() if group), text)


def titled(text):
    """The argument of a heading, which stands between quotes."""
    return escaped(plain(text)).replace('"', r"\(dq")


# Requests

def filled(text):
    """The lines of a paragraph."""
    lines = textwrap.wrap(inline(text), WIDTH, break_long_words=False, break_on_hyphens=False)
    return [guarded(line) for line in lines]


def paragraph(text):
    return [".P", *filled(text)]


def verbatim(lines):
    return [".P", ".RS 4", ".EX", *(guarded(code(line)) for line in lines), ".EE", ".RE"]


def item(tags, *texts):
    """Tags, which are roff already, and behind them texts, each of which begins a line."""
    body = [line for text in texts for line in [".br", *filled(text)]][1:]
    return [".TP", tags[0], *(line for tag in tags[1:] for line in (".TQ", tag)), *body]


def heading(text):
    return f'.SH "{titled(text.upper())}"'


def subheading(text):
    return f'.SS "{titled(text)}"'


def page(lines):
    """The source of a page. Right below a heading there is nothing to begin a paragraph for; what ends a table or an example turns hyphens on."""
    source = re.sub(r"^(\.S[HS] .*)\n\.P$", r"\1", "\n".join(lines), flags=re.MULTILINE)
    return re.sub(r"^(\.TE|\.EE)$", r"\1\n.nh", source, flags=re.MULTILINE) + "\n"


# Tables

def table(head, rows, formats):
    """A table for tbl: what stands above it, or nothing; rows of cells that are roff already; and the format of each column."""
    above = [" ".join(["lb"] * len(head)) + ".", "\t".join(map(inline, head)), ".T&"] if head else []
    return [".P", ".TS", *above, " ".join(formats) + ".", *("\t".join(row) for row in rows), ".TE"]


def text_block(text):
    """A cell of several lines."""
    return "\n".join(["T{", *filled(text), "T}"]) if text else ""


def narrow(head, rows):
    columns = list(zip(head, *rows))
    return sum(max(len(plain(cell)) for cell in column) + 3 for column in columns) <= TABLE_WIDTH


def row_item(head, row):
    """A row of a wide table: its first cell is the tag, and where there are more than two each other has its heading before it."""
    if len(row) == 2:
        return item([inline(row[0])], row[1])
    return item([inline(row[0])], *(f"{name}: {cell}" for name, cell in zip(head[1:], row[1:]) if cell))


def cells(line):
    return [cell.strip() for cell in line.strip().strip("|").split("|")]


def markdown_table(lines):
    head, rows = cells(lines[0]), [cells(line) for line in lines[2:]]
    if narrow(head, rows):
        return table(head, [[guarded(inline(cell)) for cell in row] for row in rows], ["l"] * len(head))
    return [line for row in rows for line in row_item(head, row)]


# Markdown

def kind_of(line):
    """What begins with a line."""
    kinds = [("fence", "```"), ("verbatim", "    "), ("marker", "<!--"), ("table", "|"), ("list", "- "), ("list", "1. ")]
    return next((kind for kind, start in kinds if line.startswith(start)), "text")


def blocks(lines):
    """The parts of a text that blank lines part, each with its kind; a fenced part may have blank lines in it."""
    found, fenced = [("end", [])], False
    for line in lines:
        fence = line.startswith("```")
        if fenced or line.strip() and not fence and found[-1][0] not in ("end", "marker"):
            found[-1][1].append(line)
        else:
            found.append((kind_of(line) if line.strip() else "end", [line]))
        if fenced and fence:
            found.append(("end", []))
        fenced ^= fence
    return [(kind, part) for kind, part in found if kind != "end"]


def listed(lines):
    """A list, one item a line."""
    marks = [re.fullmatch(r"(-|\d+\.) (.*)", line).groups() for line in lines]
    return [line for mark, text in marks for line in (BULLET if mark == "-" else f".IP {mark} 4", *filled(text))]


def block(kind, lines):
    """One part as roff. Markers are for tests and say nothing."""
    if kind == "text":
        return paragraph(" ".join(lines))
    if kind == "table":
        return markdown_table(lines)
    if kind == "list":
        return listed(lines)
    if kind == "fence":
        return verbatim(lines[1:-1])
    return verbatim([line[4:] for line in lines]) if kind == "verbatim" else []


def markdown(lines):
    return [line for kind, part in blocks(lines) for line in block(kind, part)]
