"""Reads the links and the headings of pages of Markdown. A page is named by its path below a folder
`root`, and so is what its links lead to."""
import os
import re

# A link with its text, in which there may be brackets; and the target of any link, also of an image
# within the text of another link.
LINK = re.compile(r"\[((?:[^\[\]]|\[[^\]]*\])*)\]\(([^)\s]+)\)")
TARGET = re.compile(r"\]\(([^)\s]+)\)")


def lines_of(root, page):
    """Returns the lines of a page, those of blocks of code left empty."""
    inside, lines = False, []
    with open(os.path.join(root, page), encoding="utf-8") as file:
        for line in file.read().split("\n"):
            if line.startswith("```"):
                inside = not inside
                line = ""
            lines.append("" if inside else line)
    return lines


def anchors(root, page):
    """Returns the anchors of a page's headings, as they are made of their text."""
    headings = (line.lstrip("#").strip() for line in lines_of(root, page) if line.startswith("#"))
    return {re.sub(r"[^\w\- ]", "", it.lower()).replace(" ", "-") for it in headings}


def links_in(line):
    """Returns the targets of the links of a line that lead to files, or to headings of the page."""
    return [it for it in TARGET.findall(line) if not re.match("[a-z]+:", it)]


def path_of(page, target):
    """Returns the path that the target of a link of a page names, and the anchor in it."""
    name, _, anchor = target.partition("#")
    return os.path.normpath(os.path.join(os.path.dirname(page), name)) if name else page, anchor


def fault_of(root, page, target):
    """Returns why a link of a page leads nowhere below `root`, or None."""
    path, anchor = path_of(page, target)
    if path.split(os.sep)[0] == os.pardir or not os.path.exists(os.path.join(root, path)):
        return f"there is no {target}"
    if anchor and path.endswith(".md") and anchor not in anchors(root, path):
        return f"{path} has no heading {anchor}"
    return None
