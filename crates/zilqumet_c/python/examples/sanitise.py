"""Writes of the page on standard input its text and a few elements, without attributes. What stands in a script, a style or their like goes."""
import html
import sys

import zilqumet

KEPT = {"p", "b", "i", "em", "strong", "ul", "ol", "li", "blockquote", "code", "pre"}
DROPPED = {"script", "style", "template", "noscript", "iframe", "noembed", "noframes", "textarea", "title", "select", "xmp", "plaintext"}


def write(node: zilqumet.Node, depth: int = 0) -> str:
    if node.name in DROPPED or depth > 200:
        return ""
    if node.kind == "text":
        return html.escape(node.text, quote=False)
    inside = "".join(write(child, depth + 1) for child in node.children)
    return f"<{node.name}>{inside}</{node.name}>" if node.name in KEPT else inside


try:
    print(write(zilqumet.parse(sys.stdin.buffer.read(), max_nodes=100_000).root), end="")
except zilqumet.Refused as refused:
    sys.exit(f"sanitise: {refused}")
