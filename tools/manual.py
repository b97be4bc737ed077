"""Makes the manual pages of docs/man, for tools/install.

A page stands in docs/man/NAME.SECTION.md, in the few forms of Markdown that docs/ has: `# NAME`, a line that says what it is, headings `##`, paragraphs,
lists, tables, and texts between fences. A line `include PAGE#HEADING` stands for that section of docs/PAGE, with what is below it; with the word
`tables` after it, for the tables of the section alone. So a manual page says what the page of docs/ says."""
import os
import re

TOP = os.path.dirname(os.path.dirname(os.path.abspath(__file__)))
PAGES = f"{TOP}/docs/man"
ESCAPES = {"\\": "\\e", "'": "\\(aq", "`": "\\(ga", "^": "\\(ha", "~": "\\(ti"}


class Wrong(Exception):
    """What hinders a page."""


def read(path):
    with open(path, encoding="utf-8") as it:
        return it.read()


def escaped(text, is_code=False):
    """A text for roff."""
    marks = ESCAPES | {"-": "\\-"} if is_code else ESCAPES
    return "".join(marks.get(it, it) if ord(it) < 128 else f"\\[u{ord(it):04X}]" for it in text)


def line_of(text):
    """A line of roff that is no request."""
    return f"\\&{text}" if text[:1] in (".", "'") else text


def link(row):
    """What stands for a link: its text, and the page of docs/ that it leads to."""
    text, page = row[1], os.path.basename(row[2].partition("#")[0])
    return text if not page or page == text else page if page == f"{text}.md" else f"{text} ({page})"


def spans(text):
    """A piece of text with its marks, as roff: code and what is set off in bold, a word that is explained in italics."""
    text = re.sub(r"\[((?:`[^`]*`|[^\]`])*)\]\(([^)]*)\)", link, text)
    made = ""
    for at, part in enumerate(re.split(r"(`[^`]+`|\*\*.+?\*\*|(?<!\w)\*\w[^*]*\*)", text)):
        if at % 2 == 0:
            made += escaped(part)
        else:
            font = "I" if re.match(r"\*\w", part) else "B"
            made += f"\\f{font}{escaped(part.strip('*').replace('`', ''), True)}\\fR"
    return line_of(made)


def cells(line):
    """The cells of a row of a table; a bar after a backslash is text."""
    return [it.strip().replace("\\|", "|") for it in re.split(r"(?<!\\)\|", line.strip()[1:-1])]


def table(lines):
    """A table: the first cell of each row, and what the others say of it, after the heads of their columns where there are several."""
    heads, made = cells(lines[0]), []
    for row in map(cells, lines[2:]):
        told = [it if len(heads) == 2 else f"{head}: {it}" for head, it in zip(heads[1:], row[1:]) if it]
        made += [".TP", spans(row[0]) if row[0] else "\\&"]
        made += [spans(it) if at == 0 else f".br\n{spans(it)}" for at, it in enumerate(told)]
    return made


def item(lines):
    """An item of a list."""
    return [".IP \\(bu 2", spans(" ".join([lines[0][2:], *(it.strip() for it in lines[1:])]))]


def code(lines):
    """A text that stands as it is."""
    return [".PP", ".RS 4", ".EX", *(line_of(escaped(it, True)) for it in lines), ".EE", ".RE"]


def heading(line):
    marks, text = line.split(" ", 1)
    if len(marks) == 2:
        return [f'.SH "{escaped(text.replace("`", "")).upper()}"']
    return [f'.SS "{escaped(text.replace("`", ""), True)}"']


def blocks(lines):
    """The blocks of a page, each with its sort."""
    at = 0
    while at < len(lines):
        line, end = lines[at], at + 1
        if not line.strip() or line.startswith("!["):
            at = end
            continue
        if line.startswith("```"):
            while not lines[end].startswith("```"):
                end += 1
            yield "code", lines[at + 1 : end]
            end += 1
        elif line.startswith("#"):
            yield "heading", line
        else:
            sort = "table" if line.startswith("|") else "item" if line.startswith("- ") else "text"
            stops = ("#", "- ", "```", "![", *(() if sort == "table" else ("|",)))
            while end < len(lines) and lines[end].strip() and not lines[end].startswith(stops):
                end += 1
            yield sort, lines[at:end]
        at = end


def body(lines):
    """The lines of roff for those of a page."""
    made = []
    for sort, block in blocks(lines):
        if sort == "text":
            made += [".PP", spans(" ".join(block))]
        else:
            made += {"code": code, "heading": heading, "table": table, "item": item}[sort](block)
    return made


def slug(text):
    """The name by which a page's links call a heading."""
    return re.sub(r"[^\w\- ]", "", text.lower()).replace(" ", "-")


def section(page, name, with_below):
    """The lines below a heading of a page of docs/, as far as the next one of its rank or of a higher one; or as far as the next one."""
    found, rank, is_code = [], 0, False
    for line in read(f"{TOP}/docs/{page}").splitlines():
        is_code ^= line.startswith("```")
        row = None if is_code else re.match(r"(#+) (.*)", line)
        if row and rank and (len(row[1]) <= rank or not with_below):
            break
        if rank:
            found.append(line)
        elif row and slug(row[2]) == name:
            rank = len(row[1])
    return found or wrong(f"docs/{page} has no section {name}")


def wrong(why):
    raise Wrong(why)


def included(line):
    """What stands for an include, with its headings below those of the page."""
    row = re.fullmatch(r"include (\S+\.md)#(\S+)( tables)?", line) or wrong(f"no include: {line}")
    lines = section(row[1], row[2], not row[3])
    if row[3]:
        lines = [it for it in lines if it.startswith("|") or not it.strip()]
    return [re.sub(r"^##+ ", "### ", it) for it in lines]


def page(name, version, date):
    """The manual page of docs/man/NAME.md, as roff."""
    title, _, number = name.rpartition(".")
    lines = read(f"{PAGES}/{name}.md").splitlines()
    what = lines[2]
    whole = []
    for line in lines[3:]:
        whole += included(line) if line.startswith("include ") else [line]
    head = [f'.TH "{escaped(title, True).upper()}" {number} "{date}" "Vobrekan {version}" "Vobrekan"', ".nh", '.SH "NAME"']
    return "\n".join([*head, f"{escaped(title, True)} \\- {escaped(what)}", *body(whole)]) + "\n"


def names():
    """The pages, as NAME.SECTION."""
    return sorted(it[: -len(".md")] for it in os.listdir(PAGES) if it.endswith(".md"))
