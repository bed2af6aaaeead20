"""Prints the elements and texts of a page on standard input, each below its parent."""
import sys

import zilqumet

try:
    page = zilqumet.parse(sys.stdin.buffer.read(), max_nodes=100_000)
except zilqumet.Refused as refused:
    sys.exit(f"tree: {refused}")
depths = {page.root: -1}
for node in page:
    depths[node] = depth = depths.get(node.parent, 0) + 1
    if node.kind == "element":
        print(f"{'  ' * depth}<{node.name}>")
    elif node.kind == "text":
        print(f'{"  " * depth}"{node.text}"')
