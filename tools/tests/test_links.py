"""The links of the pages: each relative one leads to a file, and to a heading in it."""

import os
import re
import unittest

from .samples import TOP, written

LINK = re.compile(r"\[[^\]]*\]\(([^)\s]+)\)")
HEADING = re.compile(r"^#+ (.*)$", re.MULTILINE)
CODE = re.compile(r"^```.*?^```$", re.MULTILINE | re.DOTALL)


def pages():
    """The pages with links, by their paths below the top."""
    yield from ("README.md", "CONTRIBUTING.md", os.path.join("examples", "README.md"), os.path.join("bench", "README.md"))
    for folder in ("docs", os.path.join("bench", "results")):
        for at, _, names in sorted(os.walk(os.path.join(TOP, folder))):
            yield from (os.path.relpath(os.path.join(at, name), TOP) for name in sorted(names) if name.endswith(".md"))


def anchors(text):
    """The anchors of a page's headings, as GitHub makes them."""
    found = set()
    for heading in HEADING.findall(CODE.sub("", text)):
        plain = LINK.sub(lambda match: match[0].split("]")[0][1:], heading)
        name = re.sub(r"[^\w\- ]", "", plain.lower()).replace(" ", "-")
        number = 0
        while (anchor := name if number == 0 else f"{name}-{number}") in found:
            number += 1
        found.add(anchor)
    return found


def broken(page):
    """The links of a page that lead nowhere."""
    text = CODE.sub("", written(os.path.join(TOP, page)))
    for target in LINK.findall(text):
        path, _, anchor = target.partition("#")
        if re.match(r"\w+:", path):
            continue
        full = os.path.normpath(os.path.join(TOP, os.path.dirname(page), path)) if path else os.path.join(TOP, page)
        if not os.path.exists(full) or anchor and (not full.endswith(".md") or anchor not in anchors(written(full))):
            yield target


class Links(unittest.TestCase):
    def test_anchors(self):
        text = "# What isn't `told`\n```\n# no heading\n```\n## Text, and [more](x.md)\n## Text, and more\n"
        self.assertEqual(anchors(text), {"what-isnt-told", "text-and-more", "text-and-more-1"})

    def test_each_leads_somewhere(self):
        self.assertEqual({page: found for page in pages() if (found := list(broken(page)))}, {})

    def test_each_page_of_docs_is_reached(self):
        """From README, by links."""
        seen, left = set(), ["README.md"]
        while left:
            page = left.pop()
            if page in seen:
                continue
            seen.add(page)
            for target in LINK.findall(written(os.path.join(TOP, page))):
                path = os.path.normpath(os.path.join(os.path.dirname(page), target.partition("#")[0]))
                if path.endswith(".md") and os.path.exists(os.path.join(TOP, path)):
                    left.append(path)
        self.assertEqual(sorted(set(pages()) - seen), [])
