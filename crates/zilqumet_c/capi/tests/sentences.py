"""sentences.py HEADER TEST..: each sentence of the header on ownership, lifetimes and threads is quoted in a test, and each quotation is of the header.

Sentences on ownership are those with one of the words below. A quotation stands in a comment of a test, between double quotes, and begins with a capital
letter of a sentence, or within one behind ": " or "; ".
"""

import re
import sys
from pathlib import Path

WORDS = re.compile(
    r"\b(frees?|freed|stays?|leaves?|shares|threads?|null|copied|afterwards|allowed|stands? for ZQ_DEFAULTS|no state)\b|is empty then|are empty where|keep their numbers"
    r"|changes? nothing|begins as|empty handle|until it returns|does not read such", re.IGNORECASE)
# headings, the example, and what a status stands for
NOT_SHOWN = re.compile(r"^[A-Z]+\.$|ZQ_EMPTY;|^(a pointer is null|an earlier piece was refused)|^Only these are not answered")


def comments(path):
    """Yields the comments of a file, each as one line."""
    for comment in re.findall(r"/\*(.*?)\*/", Path(path).read_text(encoding="utf-8"), re.DOTALL):
        yield " ".join(re.sub(r"(?m)^ *\*( |$)", "", comment).replace(" - ", " ").split())


def main():
    header, *tests = sys.argv[1:]
    all_of_header = [*comments(header)]
    quoted = {it for path in tests for comment in comments(path) for it in re.findall(r'"([^"]+[.:])"', comment)}
    sentences = {it for comment in all_of_header for it in re.split(r"(?<=\.) (?=[A-Z]|zq_)", comment) if WORDS.search(it) and not NOT_SHOWN.search(it)}
    missing = [it for it in sentences if not any(it in quote or quote in it for quote in quoted)]
    strange = [quote for quote in quoted if not any(quote in comment for comment in all_of_header)]
    for it in missing:
        print(f"sentences: no test quotes: {it}")
    for it in strange:
        print(f"sentences: not in the header: {it}")
    print(f"sentences: {len(sentences)} on ownership, {len(missing)} without a test")
    return bool(missing or strange) or not sentences


sys.exit(main())
