"""timing.py PAGE..: parsers for Python beside one another; of each page and parser a row of a Markdown table.

"parse" is from the bytes to a tree, "both" that and a walk over the whole tree which reads each node's name and text; milliseconds, the least of up to
15 runs. "MB" is what a process of its own has taken at most, above what it takes with the parser loaded. All are told that the bytes are UTF-8. The parsers are
zilqumet, and of Debian's python3-html5-parser, python3-lxml, python3-html5lib and python3-bs4 (over lxml) those that are there; run it by /usr/bin/python3.
"""

import resource
import subprocess
import sys
import time


def walk_nodes(page):
    return sum(len(node.name) + len(node.text) for node in page)


def walk_elements(root):
    return sum(len(it.text or "") + len(it.tail or "") + (len(it.tag) if isinstance(it.tag, str) else 0) for it in root.iter())


def walk_soup(soup):
    return sum(len(it.name or "") + (len(it) if it.name is None else 0) for it in soup.descendants)


def zilqumet():
    import zilqumet as module
    module.Entities.standard()
    return module.parse, walk_nodes


def html5_parser():
    import html5_parser as module
    return lambda data: module.parse(data, transport_encoding="utf-8"), walk_elements


def lxml():
    import lxml.html as module
    return lambda data: module.document_fromstring(data, module.HTMLParser(encoding="utf-8")), walk_elements


def html5lib():
    import html5lib as module
    return lambda data: module.parse(data, transport_encoding="utf-8"), walk_elements


def bs4():
    import bs4 as module
    return lambda data: module.BeautifulSoup(data, "lxml", from_encoding="utf-8"), walk_soup


PARSERS = [zilqumet, html5_parser, lxml, html5lib, bs4]


def least(work, enough=2.0, most=15):
    keep, times = work(), []
    while len(times) < 3 or len(times) < most and sum(times) < enough:
        del keep
        begin = time.perf_counter()
        keep = work()
        times.append(time.perf_counter() - begin)
    return min(times) * 1000


def measured(name, path):
    """What one parser takes for one page, in this process."""
    parse, walk = next(it for it in PARSERS if it.__name__ == name)()
    data = open(path, "rb").read()
    parse(b"<p>x")
    before = resource.getrusage(resource.RUSAGE_SELF).ru_maxrss
    keep = parse(data)
    walk(keep)
    memory = (resource.getrusage(resource.RUSAGE_SELF).ru_maxrss - before) / 1024
    return f"{least(lambda: parse(data)):.1f} | {least(lambda: walk(parse(data))):.1f} | {memory:.1f}"


def main():
    if sys.argv[1] == "--one":
        return print(measured(*sys.argv[2:]))
    print("| Page | bytes | parser | parse | both | MB |\n|---|---|---|---|---|---|")
    for path in sys.argv[1:]:
        for parser in PARSERS:
            ran = subprocess.run([sys.executable, __file__, "--one", parser.__name__, path], capture_output=True, text=True)
            told = ran.stdout.strip() if ran.returncode == 0 else (ran.stderr.strip().splitlines() or ["?"])[-1]
            print(f"| {path.rsplit('/', 1)[-1]} | {len(open(path, 'rb').read())} | {parser.__name__} | {told} |", flush=True)


main()
