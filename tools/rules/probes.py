"""Pages that bring every token into every insertion mode: fronts that lead to a mode and a stack of open elements, a token, and an end that shows where it
led. What is expected of each the model says."""
from rules.cases import Page

# fronts of documents, with ~ for a space
FRONTS = """
<!DOCTYPE~html>
<html>
<head>
<head><noscript>
<head></head>
<body>
<p>
<b><p>
<p><b><i></p>
<div><i><span>
<ul><li><p>
<dl><dt><div>
<h1><b>
<form><button>
<a><b>
<div><nobr>
<ruby><rtc><rb>
<object><p>
<title>
<textarea>
<script>
<plaintext>
<p><table>
<!DOCTYPE~html><p><table>
<table>~
<table>x
<table><caption>
<table><caption><b><p>
<table><colgroup>
<table><tbody>
<table><thead>
<table><tfoot><tr>
<table><tfoot><tr><td>
<table><tbody><tr><td>
<b><table><tbody><tr>
<table><tr><td>
<table><thead><tr><th><p>
<select>
<p><select><optgroup><option>
<select><option>
<table><td><select>
<table><select><option>
<table><template>
<template>
<template><tr>
<template><tr><td>
<template><td>
<template><col>
<template><tbody>
<template><p>
<template><select>
<template><table>
<body></body>
<body></body></html>
<frameset>
<frameset><frameset>
<frameset></frameset>
<frameset></frameset></html>
<svg>
<p><svg><g>
<svg><desc>
<svg><foreignObject><p>
<svg><title>
<table><svg>
<table><td><svg>
<math>
<math><mi>
<math><annotation-xml>
<math><annotation-xml><svg>
<math><annotation-xml~encoding=text/html>
<select><svg>
""".split()
CONTEXTS = "html head body div p form table caption colgroup tbody tr td select option template frameset title noscript plaintext button".split()
CONTEXTS += ["svg svg", "svg desc", "svg foreignObject", "math math", "math mi", "math annotation-xml"]
# fragments of these with a front
FRONTED = [("<table>", "td"), ("<template>", "select"), ("<svg>", "tr"), ("<tr>", "table"), ("<td>", "tbody"), ("<select>", "table"), ("<p>", "form")]
FRONTED += [("<mi>", "math math")]
OTHERS = ["x", " ", "\n", "\t", "\f", "&#13;", "\0", "\0 \0x", "<!--c-->", "<!DOCTYPE html>", "<input type=hidden>", "<input type=text>", "<font color=1>"]
OTHERS += ["<svg/>", "<math/>", "<g/>", "<mglyph>", "<x q=1>", "</x>", ""]
# what follows the token: a comment shows the current node, and what comes then the insertion mode
ENDS = ["<!--c-->y<td>z", "<!--c--></p>y</table>z<b>"]
# after these fronts a frameset may still take the place of the body
FRESH = ["", "<!DOCTYPE~html>", "<html>", "<head>", "<head></head>", "<p>", "<p><b><i></p>", "<dl><dt><div>", "<div><nobr>", "<svg>", "<math><mi>", "<body></body>"]
FRAMES = "<!--c--><frameset>y"
# what may stand between an element and the tag that looks for it
BETWEEN = "<i> <p> <div> <li> <h2> <ol> <ul> <dd> <button> <applet> <marquee> <object> <option> <optgroup> <select> <table> <template> <span>".split()
BETWEEN += ["<table><td>", "<table><th>", "<table><caption>", "<svg>", "<svg><desc>", "<svg><title>", "<svg><foreignObject>", "<math>", "<math><mi>", "<math><mo>"]
BETWEEN += ["<math><mn>", "<math><ms>", "<math><mtext>", "<math><annotation-xml>", "<math><annotation-xml encoding=text/html>"]
# what leads to a part of a table
LEADING = {"caption": "<table>", "colgroup": "<table>", "tbody": "<table>", "thead": "<table>", "tfoot": "<table>", "tr": "<table>", "td": "<table>", "th": "<table>"}
IN_TABLES = ["<table><tbody><tr>", "<table><thead>", "<table><tfoot><tr><th>", "<table><caption>"]
# what arms and the faults of wrong.py asked for
SINGLE = """
<template><select><template></template><option>x<p>y
<svg><foreignObject><p><svg><g></foreignObject>y
<math><mi><b><math><mo></mi>y
<g><svg><g></g>x
<ruby><button><p><rb>x
<ruby><button><p><rtc>x
<ruby><button><p><rp>x
<ruby><button><p><rt>x
<math><mrow encoding=text/html><a>x
<table><td><select><template></template><tr><td>x
<table><td><template><select><template></template><tr>x
<b><b><b><b></b></b></b></b>x
<table><form><form>x
<g><svg><g></g></g>x
<ruby><ul><p><rb>x
<ruby><ul><p><rtc>x
<ruby><ul><p><rp>x
<ruby><ul><p><rt>x
<image>x
<li><ol></li>x
<form><object></form>x
<p><b><i><u><s><em></p>x
<svg><!--c--><!DOCTYPE html>x\0<g/>y<path>
<p><b q=1><b q=1><b q=1><b><b></p>x
<p><b><b><b><b q=1></p>x
<ruby><dt>x<rb>y
<ruby><rp>x<rb>y
<math><annotation-xml encoding=application/xhtml+xml><a>x<p>y
<a><object><a>x</a></object>y
<a><template><a>x</a></template>y
<template><b>y</template>x
&#13;<html>&#13;<head>&#13;</head>&#13;<table>&#13;x
\f<html>\f<head>\f</head>\f<table>\fx
\t<html>\t<head>\t</head>\t<table>\tx
""".split("\n")[1:-1]


def names(rules):
    """Returns the names of all known elements of HTML, as the definitions have them."""
    known = rules.specs.module("html_names.specs.Names").definitions["name_of"].equations
    found = ["".join(map(chr, rules.value("html_names.specs.Names", "name_of", (it.patterns[0][1].rpartition(".")[2],)))) for it in known]
    return [it for it in found if it and " " not in it]


def probe(front, token, end, context=None, parses_foreign=True):
    return Page(f"{token} after {front or 'nothing'}", (front + token + end).encode(), context, None, parses_foreign)


def probes(rules):
    """Yields all these pages."""
    known = names(rules)
    tokens = [f"<{it} q=1>" for it in known] + [f"</{it}>" for it in known] + OTHERS
    for front, context in [("", None), *((it.replace("~", " "), None) for it in FRONTS), *(("", it) for it in CONTEXTS), *FRONTED]:
        yield from (probe(front, it, ENDS[at % len(ENDS)], context) for at, it in enumerate(tokens))
        if not any(it in f"{front}{context}" for it in ("svg", "math")):
            yield from (probe(front, it, "", context, False) for it in ("<svg>", "<math>"))
    for front in FRESH:
        yield from (probe(front.replace("~", " "), it, FRAMES) for it in tokens)
    for name in known:
        for it in BETWEEN:
            front = f"{LEADING.get(name, '')}<{name}>{it}"
            yield probe(front, f"</{name}>", ENDS[0])
            yield probe(front, f"<{name}>", ENDS[1])
        # (whether the element is special: to any other end tag, to the adoption agency, and to an item)
        front = f"{LEADING.get(name, '')}<{name}>"
        for outer, token in (("x", "</x>"), ("b", "</b>"), ("li", "<li>")):
            yield probe(f"<{outer}>{front}y", token, ENDS[0])
    for front in IN_TABLES:
        for it in BETWEEN:
            yield from (probe(front + it, f"{mark}{name}>", ENDS[0]) for name in ("table", *LEADING) for mark in ("<", "</"))


def singles():
    yield from (Page(it, it.encode()) for it in SINGLE)
