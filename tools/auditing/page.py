"""A page as Markdown and as HTML that needs no other file. A page is a list of blocks: prose in a little Markdown, and code with links."""
import html
import re
from collections import namedtuple
from itertools import groupby

# Lines as they stand in a file; `anchor` is a link's target, and `links` are (row, column, length, anchor) in order.
Code = namedtuple("Code", "lines anchor links")

# Code of more lines than these may be broken across sheets of paper: it would leave too much of one empty.
LONG = 24

# A link in prose, whose label may be code; and a word with hyphens or slashes in it, behind which a browser would break a line.
LINK = re.compile(r"\[((?:`[^`]+`|[^\]`])+)\]\(([^)]+)\)")
JOINED = re.compile(r"[\w.]+(?:[-/][\w.]+)+")

STYLE = """
body { color: #111; background: #fff; font: 16px/1.5 Georgia, 'DejaVu Serif', serif; hyphens: none; margin: 2em auto; max-width: 60em;
  overflow-wrap: break-word; padding: 0 1em }
h1 { font-size: 1.6em } h2 { font-size: 1.3em; border-top: 1px solid #111; padding-top: .6em; margin-top: 2em } h3 { font-size: 1.1em }
h4 { font-size: 1em; margin-bottom: .3em }
blockquote { border-left: 3px solid #777; font-style: italic; margin-left: 0; padding-left: 1em }
li { margin: .45em 0 }
table { border-collapse: collapse; font-size: .9em; margin: 1em 0; max-width: calc(100% - 2px) }
th, td { border: 1px solid #999; padding: .25em .5em; text-align: left; vertical-align: top } th { background: #eee }
td.number, th.number { text-align: right }
code, pre { font: .82em/1.4 'DejaVu Sans Mono', Menlo, Consolas, monospace }
code, .whole, pre a { white-space: nowrap } code.words { white-space: normal } td:first-child code { white-space: nowrap }
pre { border-left: 2px solid #bbb; margin: .5em 0; overflow-x: auto; padding: .1em 0 .1em .8em; white-space: pre-wrap }
pre .row { display: block; padding-left: 4em; text-indent: -4em }
pre .comment { color: #444; font-style: italic }
a { color: #034; text-decoration: none } a:hover { text-decoration: underline } p a, li a, td a { text-decoration: underline }
@media screen and (max-width: 50em) { table { display: block; overflow-x: auto } }
@page { size: A4; margin: 16mm 14mm; @bottom-right { content: counter(page) " of " counter(pages); font: 8pt Georgia, 'DejaVu Serif', serif } }
@media print {
  body { font-size: 10.5pt; line-height: 1.4; margin: 0; max-width: none; padding: 0 } pre { font-size: 7.5pt; break-inside: avoid; overflow: visible }
  pre.long { break-inside: auto } p:has(+ pre), p:has(+ table), p:has(+ ul) { break-after: avoid }
  a { color: #111 } h1, h2, h3, h4 { break-after: avoid } tr, li { break-inside: avoid } p { orphans: 3; widows: 3 } p a, li a, td a { text-decoration: none }
}
"""


def anchor(text):
    """A heading's link target."""
    return re.sub(r"[^\w]+", "-", text.lower().replace("'", "")).strip("-")


def contents(blocks):
    """The page's sections as a list of links, each with its parts behind a colon."""
    sections = []
    for level, heading in re.findall(r"^(##|###) (.+)$", "\n".join(block for block in blocks if not isinstance(block, Code)), re.M):
        sections += [[]] if level == "##" else []
        sections[-1].append(f"[{heading}](#{anchor(heading)})")
    return "\n".join("- " + ": ".join(filter(None, [section[0], "; ".join(section[1:])])) for section in sections)


def ranges(letters):
    """Letters in their order, with three or more that follow each other as a range."""
    runs = [[letter for _, letter in run] for _, run in groupby(enumerate(letters), lambda pair: ord(pair[1]) - pair[0])]
    parts = [part for run in runs for part in ([f"{run[0]} to {run[-1]}"] if len(run) > 2 else run)]
    return " and ".join(filter(None, [", ".join(parts[:-1]), parts[-1]])) if parts else ""


# ---- Markdown


def markdown(blocks):
    """The page as Markdown: neighbouring pieces of code share a fence, and have no link targets."""
    parts = []
    for code, run in groupby(blocks, lambda block: isinstance(block, Code)):
        texts = ["\n".join(block.lines) if code else LINK.sub(lambda m: m[1] if ":" in m[2] else m[0], block) for block in run]
        parts.append("```\n" + "\n\n".join(texts) + "\n```" if code else "\n\n".join(texts))
    return "\n\n".join(parts) + "\n"


# ---- HTML


def page(title, blocks):
    """The page as HTML."""
    body = "\n".join(code_html(block) if isinstance(block, Code) else prose_html(block) for block in blocks)
    head = f'<meta charset="utf-8"><meta name="viewport" content="width=device-width"><title>{html.escape(title)}</title><style>{STYLE}</style>'
    return f'<!DOCTYPE html>\n<html lang="en"><head>{head}</head><body>\n{body}\n</body></html>\n'


def dead_links(text):
    """The links of a page that lead nowhere in it."""
    return sorted(set(re.findall(r'href="#([^"]+)"', text)) - set(re.findall(r' id="([^"]+)"', text)))


def code_html(block):
    """Lines of code, with a link at each name that has one."""
    rows = [line_html(line, [link[1:] for link in block.links if link[0] == row]) for row, line in enumerate(block.lines)]
    name = f' id="{html.escape(block.anchor)}"' if block.anchor else ""
    long = ' class="long"' if len(block.lines) > LONG else ""
    return f"<pre{name}{long}>" + "".join(f'<span class="row">{row}\n</span>' for row in rows) + "</pre>"


def line_html(line, links):
    """One line of code; a comment is set apart."""
    if line.lstrip().startswith(("-- ", "// ")):
        return f'<span class="comment">{unbroken(html.escape(line))}</span>'
    parts, at = [], 0
    for column, length, target in sorted(links):
        parts += [unbroken(html.escape(line[at:column])), f'<a href="#{html.escape(target)}">{html.escape(line[column : column + length])}</a>']
        at = column + length
    return "".join(parts) + unbroken(html.escape(line[at:]))


def prose_html(text):
    """Prose: headings, quotes, lists, tables and paragraphs, each a run of lines with an empty line behind it."""
    return "\n".join(run_html(run.split("\n")) for run in re.split(r"\n{2,}", text.strip()))


def run_html(lines):
    heading = re.match(r"(#+) (.*)", lines[0])
    if heading:
        level = len(heading.group(1))
        return f'<h{level} id="{anchor(heading.group(2))}">{inline(heading.group(2))}</h{level}>'
    for mark, tag in ((r"> ?", "blockquote"), (r"\d+\. ", "ol"), (r"- ", "ul")):
        if re.match(mark, lines[0]):
            items = [inline(re.sub("^" + mark, "", line)) for line in lines]
            return f"<{tag}>" + ("<br>".join(items) if tag == "blockquote" else "".join(f"<li>{item}</li>" for item in items)) + f"</{tag}>"
    if lines[0].startswith("|"):
        return table_html(lines)
    return f"<p>{inline(' '.join(lines))}</p>"


def table_html(lines):
    """A table, whose head stands again on each sheet of paper; a column whose rule ends with a colon holds numbers."""
    rows = [[cell.strip() for cell in line.strip("|").split("|")] for line in lines]
    numbers = [rule.endswith(":") for rule in rows[1]]
    body = "\n".join(row_html("td", row, numbers) for row in rows[2:])
    return f"<table><thead>{row_html('th', rows[0], numbers)}</thead>\n<tbody>{body}</tbody></table>"


def row_html(tag, cells, numbers):
    return "<tr>" + "".join(f"<{tag}{' class=number' if n else ''}>{inline(c)}</{tag}>" for c, n in zip(cells, numbers)) + "</tr>"


def inline(text):
    """Code, bold, emphasis and links within a line."""
    parts = LINK.split(text)
    links = [f'<a href="{html.escape(target)}">{spoken(label)}</a>' for label, target in zip(parts[1::3], parts[2::3])]
    return "".join(between + link for between, link in zip(map(spoken, parts[::3]), links + [""]))


def spoken(text):
    """What stands between links: code, and prose."""
    parts = re.split(r"`([^`]+)`", html.escape(text, quote=False))
    return "".join(code_in_line(part) if i % 2 else stressed(part) for i, part in enumerate(parts))


def code_in_line(text):
    """A piece of code, which breaks at its spaces only."""
    return f"<code class=words>{unbroken(text)}</code>" if " " in text else f"<code>{text}</code>"


def stressed(text):
    """Prose with what is bold and what is emphasised."""
    text = re.sub(r"\*\*(.+?)\*\*", r"<b>\1</b>", unbroken(text))
    return re.sub(r"(?<!\w)\*([^*]+)\*(?!\w)", r"<i>\1</i>", text)


def unbroken(text):
    """A text whose words with hyphens or slashes stay on one line."""
    return JOINED.sub(r'<span class="whole">\g<0></span>', text)
