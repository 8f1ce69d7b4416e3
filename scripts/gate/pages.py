"""Looks at the pages: README.md, CALLING.md and docs/.

usage: python3 -B scripts/gate/pages.py [--count]

All together they have at most so many words, which --count tells by page. Each link between files leads to a file, and to a heading of it
where it names one, and each path that a page names is there. The last line is 'N passed, M failed', over pages, links and paths.
"""

import glob
import os
import re
import sys

from common import ROOT

MOST_WORDS = 22_000
FOLDERS = "crates|docs|scripts|bindings|packaging|editors|examples"


def text_of(path):
    with open(path, encoding="utf-8") as it:
        return it.read()


def anchors(text):
    """Returns the headings of a page as links name them."""
    return {re.sub(r"[^\w\- ]", "", it.lower()).replace(" ", "-") for it in re.findall(r"(?m)^#+ (.*)$", re.sub(r"(?ms)^```.*?^```$", "", text))}


def links(path, text):
    """Returns each link to a file of the repository, and why it leads nowhere, if so."""
    for link in re.findall(r"\]\(([^)\s]+)\)", text):
        file, _, heading = link.partition("#")
        target = os.path.join(os.path.dirname(path), file) if file else path
        if "://" not in link:
            is_there = os.path.exists(target) and (not heading or heading in anchors(text_of(target)))
            yield link, None if is_there else "leads nowhere"


def paths(text):
    """Returns each path that a page names, and that it is not there, if so."""
    for path in {*re.findall(rf"(?<![\w/.-])((?:{FOLDERS})/[\w./-]*\w)", text)}:
        yield path, None if os.path.exists(path) or path.startswith("crates/mine/") else "is not there"


def main():
    os.chdir(ROOT)
    pages = ["README.md", "CALLING.md", *sorted(glob.glob("docs/*.md"))]
    words = {it: len(text_of(it).split()) for it in pages}
    if "--count" in sys.argv[1:]:
        print("\n".join(f"{count:6} {it}" for it, count in words.items()))
    total = sum(words.values())
    print(f"{total} words of at most {MOST_WORDS}")
    found = [("the pages", "are too long" if total > MOST_WORDS else None)]
    everywhere = [*pages, *glob.glob("bindings/**/*.md", recursive=True), "packaging/README.md", "examples/README.md"]
    for page in [*everywhere, *glob.glob("crates/*/README.md")]:
        text = text_of(page)
        # what a crate's own page or one of a binding names is below its folder
        looked_at = [*links(page, text), *(paths(text) if page in pages else [])]
        found += [(f"{page}: {what}", why) for what, why in looked_at]
    for what, why in found:
        if why:
            print(f"{sys.argv[0]}: {what} {why}")
    failed = sum(bool(why) for _, why in found)
    print(f"{len(found) - failed} passed, {failed} failed")
    return 1 if failed else 0


if __name__ == "__main__":
    sys.exit(main())
