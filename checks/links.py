"""Looks whether each link of the docs leads to a file of the repository, and to a heading there if it names one, and
whether each source file that they name is there."""

import pathlib
import re
import sys

LINK = re.compile(r"\]\(([^)\s]+)\)")
SOURCE = re.compile(r"`([\w./]+\.(?:rt|antt|py|sh))`")


def headings(page):
    """The names by which a page's headings are linked."""
    titles = re.findall(r"^#+ (.*)$", page.read_text(encoding="utf-8"), re.MULTILINE)
    return {re.sub(r"[^\w\- ]", "", title.lower()).replace(" ", "-") for title in titles}


def leads_nowhere(page, link):
    path, _, heading = link.partition("#")
    target = page.parent / path if path else page
    return not target.exists() or heading and heading not in headings(target)


def main():
    files = [path for path in pathlib.Path(".").rglob("*") if not {"out", ".git"} & set(path.parts)]
    pages = sorted(path for path in files if path.suffix == ".md")
    # `src/kinds.rt` and `kinds.rt` name a file in any crate
    ends = {"/".join(path.parts[at:]) for path in files for at in range(len(path.parts))}
    lost = []
    for page in pages:
        text = page.read_text(encoding="utf-8")
        links = [link for link in LINK.findall(text) if "://" not in link]
        lost += [f"{page}: {link} leads nowhere" for link in links if leads_nowhere(page, link)]
        lost += [f"{page}: there is no file {name}" for name in SOURCE.findall(text) if name not in ends]
    print("\n".join(lost or [f"{len(pages)} pages: each link leads somewhere, each source named is there"]))
    return 1 if lost else 0


sys.exit(main())
