"""A tree of nodes, as the standard's words change it, and how html5lib's cases write it."""


class Node:
    """A node: of an element its name, which begins with "svg " or "math " in these namespaces, and its attributes, a dict from names to values; of a text or
    a comment its data; of a doctype its name and ids, each None where it is not there. A template has contents, which are a node too, with a host. Of an
    element, a comment or a doctype the origin is the number of its token, if one asked for it; a clone has that of its original."""

    def __init__(self, number, kind, name="", attributes=(), data="", origin=None, is_clone=False):
        self.number, self.kind, self.name, self.attributes, self.data = number, kind, name, dict(attributes), data
        self.origin, self.is_clone = origin, is_clone
        self.children, self.parent, self.contents, self.host = [], None, None, None

    def remove(self):
        if self.parent:
            self.parent.children.pop(self.parent.children.index(self))
            self.parent = None

    def put(self, parent, before=None):
        """Takes the node from its parent, and puts it into another, as the last child or before one."""
        self.remove()
        parent.children.insert(len(parent.children) if before is None else parent.children.index(before), self)
        self.parent = parent


class Document:
    """The nodes that were made, in order. The first is the document, or the root of a fragment."""

    def __init__(self):
        self.nodes = []

    def make(self, kind, *words, **named):
        node = Node(len(self.nodes), kind, *words, **named)
        self.nodes.append(node)
        if kind == "element" and node.name == "template":
            node.contents = self.make("contents")
            node.contents.host = node
        return node


def attribute_name(node, name):
    # (of another namespace than HTML, `xmlns` has the namespace that it names)
    return "xmlns xmlns" if name == "xmlns" and " " in node.name else name


def lines(node, depth=0):
    """Yields the lines of what a node holds."""
    front = "| " + "  " * depth
    for it in node.children:
        if it.kind == "text":
            yield f'{front}"{it.data}"'
        elif it.kind == "comment":
            yield f"{front}<!-- {it.data} -->"
        elif it.kind == "doctype":
            name, public, system = (one or "" for one in it.data)
            yield f"{front}<!DOCTYPE {name}" + (f' "{public}" "{system}"' if public or system else "") + ">"
        else:
            yield f"{front}<{it.name}>"
            named = [(attribute_name(it, name), value) for name, value in it.attributes.items()]
            for name, value in sorted(named, key=lambda one: one[0].encode("utf-16-be", "surrogatepass")):
                yield f'{front}  {name}="{value}"'
            if it.contents:
                yield f"{front}  content"
                yield from lines(it.contents, depth + 2)
            yield from lines(it, depth + 1)


def written(root):
    """Returns the text of a tree, as bytes."""
    return "".join(f"{it}\n" for it in lines(root)).encode("utf-8", "surrogatepass")
