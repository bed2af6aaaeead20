"""compare.py PROGRAM ZQTREE TREE_LINES SUITES [COUNT]: trees and ledgers by C, Python and Rust against html_cmd's, trees by C and Python in pieces too.

PROGRAM is html_cmd, ZQTREE the tool in C, TREE_LINES that in Rust; SUITES has entities.json and, in any folders, files of cases (.dat). The pages: the
inputs of all cases of tree construction, documents and fragments, and COUNT (1,000) that are cut out of them at random. Refusals are compared by their
causes and places. It fails where a page differs, and where no case is there.
"""

import random
import re
import subprocess
import sys
from pathlib import Path

import zilqumet


def cases(folder):
    """Yields the inputs of the cases of tree construction, each with its context or None."""
    for path in sorted(Path(folder).rglob("*.dat")):
        for case in path.read_bytes().split(b"\n\n#data\n"):
            data = case.removeprefix(b"#data\n").split(b"\n#errors\n")[0]
            context = re.search(rb"\n#document-fragment\n(.*)\n", case)
            yield data, context and context[1].decode()


def lines(root):
    """Yields the lines of a tree."""
    stack = [(child, 0) for child in root.children][::-1]
    while stack:
        node, depth = stack.pop()
        space = "| " + "  " * depth
        if node.kind == "contents":
            yield space + "content"
        elif node.kind == "element":
            yield f"{space}<{node.name}>"
            for name, value in sorted(node.attrs.items(), key=lambda attr: attr[0].encode("utf-16-be")):
                yield f'{space}  {name}="{value}"'
        elif node.kind == "text":
            yield f'{space}"{node.text}"'
        elif node.kind == "comment":
            yield f"{space}<!-- {node.text} -->"
        else:
            name, public, system = (it or "" for it in node.doctype)
            yield f"{space}<!DOCTYPE {name}" + (f' "{public}" "{system}"' if public or system else "") + ">"
        stack += [(child, depth + 1) for child in ([node.contents] if node.contents else []) + [*node.children]][::-1]


def in_pieces(data, context, size):
    with zilqumet.Parser(context) as parser:
        for start in range(0, len(data), size):
            parser.feed(data[start : start + size])
        return parser.finish()


def token_lines(ledger):
    """Yields the lines of a ledger."""
    kinds = {"start tag": "start", "end tag": "end", "character": "char", "end of file": "eof"}
    for token in ledger:
        name = f"U+{ord(token.name):04X}" if token.kind == "character" else token.name
        what = token.cause or (token.node and str(token.node.number))
        yield " ".join(filter(None, [str(token.start), str(token.end), kinds.get(token.kind, token.kind), name, token.fate, what]))


def by_python(make):
    try:
        told = [*make()]
    except zilqumet.Refused as refused:
        return 1, "", str(refused).replace("zilqumet", "refused") + "\n"
    return 0, "".join(line + "\n" for line in told), ""


def by_program(words, data):
    ran = subprocess.run(words, input=data, stdout=subprocess.PIPE, stderr=subprocess.PIPE)
    return ran.returncode, ran.stdout.decode(), ran.stderr.decode()


def main():
    program, zqtree, tree_lines, suites = sys.argv[1:5]
    count = int(sys.argv[5]) if len(sys.argv) > 5 else 1000
    entities = f"{suites}/entities.json"
    pages = [*cases(suites)]
    if not pages:
        sys.exit(f"compare: no cases below {suites}")
    whole, chance = b"".join(data for data, _ in pages), random.Random(1)
    for _ in range(count):
        start = chance.randrange(len(whole))
        pages.append((whole[start : start + chance.randrange(1, 400)], chance.choice([None, None, "div", "table", "tr", "select", "template"])))
    different = refused = 0
    for data, context in pages:
        name = [] if context is None else [context]
        of_program = ["--entities", entities, *(["--fragment", *name] if name else [])]
        size, of_c = chance.randrange(1, 9), ["-e", entities, *(["-f", *name] if name else [])]
        tree, ledger = (by_program([program, command, *of_program], data) for command in ("tree", "audit"))
        told = {
            "Python": (tree, by_python(lambda: lines((zilqumet.parse(data) if context is None else zilqumet.parse_fragment(data, context)).root))),
            "Python in pieces": (tree, by_python(lambda: lines(in_pieces(data, context, size).root))),
            "C": (tree, by_program([zqtree, *of_c, "tree", "-"], data)),
            "C in pieces": (tree, by_program([zqtree, *of_c, "-p", str(size), "tree", "-"], data)),
            "Rust": (tree, by_program([tree_lines, "tree", entities, *name], data)),
            "Python's ledger": (ledger, by_python(lambda: token_lines((zilqumet.audit(data) if context is None else zilqumet.audit_fragment(data, context))[1]))),
            "C's ledger": (ledger, by_program([zqtree, *of_c, "audit", "-"], data)),
            "Rust's ledger": (ledger, by_program([tree_lines, "audit", entities, *name], data)),
        }
        refused += tree[0] != 0
        for who, (want, it) in told.items():
            if it != want:
                different += 1
                print(f"compare: {who} differs on {data!r} in {context}: {it[2]!r} {want[2]!r}")
    print(f"compare: {len(pages)} pages, {refused} of them refused, {different} different")
    return different != 0


if __name__ == "__main__":
    sys.exit(main())
