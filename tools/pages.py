"""Random pages, the same for the same seed: pieces of markup that the rules tell apart, and bytes among them. The least part of a page that shows what
the page shows. The worked pages. And the model of the suites."""
import importlib.util
import re
from pathlib import Path

TOP = Path(__file__).resolve().parent.parent
# how the rows show what cannot stand in a line
SHOWN = {"␊": "\n", "␍": "\r", "␀": "\0", "␠": " "}

BLOCKS = "div p ul li dl dt dd address article center h1 h2 pre listing form fieldset blockquote".split()
INLINE = "b i em strong a nobr font code u s small big tt span label".split()
TABLES = "table caption colgroup col tbody thead tfoot tr td th".split()
FORMS = "select option optgroup input button textarea keygen".split()
HEADS = "html head body title style script base link meta noscript template frameset frame noframes".split()
OTHERS = "br hr img image wbr area embed param source track object applet marquee iframe xmp plaintext noembed ruby rb rp rt rtc x".split()
NAMES = BLOCKS * 3 + INLINE * 4 + TABLES * 4 + FORMS * 2 + HEADS * 2 + OTHERS + ["svg"]
ATTRIBUTES = ["", "", "", "", " a=b", " class='x y'", ' id="1" id=2', " href=&amp;&lt;x", " type=hidden", " a=b a=c B", " x='\n&notit;'", "/", " =x"]
ATTRIBUTES += [' a="b"', " a=\"b\" c='d' e=f", ' a = b', ' a="b"c=d', " a='b'c", ' a="&amp;" b=c', ' a=b/', ' a="b" /', " /a='b' A=c", ' a="\0"', " a=`<\"'=", ' a="<>" b=\'"\' ']
TEXTS = ["x", "yz", " ", "\n", "\t \r\n", "&", "&lt;", "&notit;", "&#x41;", "&#0;", "&#128;", "\0", "<", "</", "é", "\U0001f600", "]]>", "--", "a\rb"]
OTHER_PIECES = ["<!--c-->", "<!-->", "<!--a--!>", "<!-- - -- -->", "<?pi?>", "</>", "</ x>", "<!x>", "<![CDATA[x]]>", "<!--"]
DOCTYPES = ["<!DOCTYPE html>", "<!doctype>", '<!DOCTYPE html PUBLIC "-//W3C//DTD HTML 3.2//EN">', "<!DOCTYPE x SYSTEM 'about:legacy-compat'>"]
# what tags, comments, doctypes and references are made of
PARTS = """< </ <! <!-- - -- --> --!> > / = " ' ` a A b= c="d" &# &#x 4 80; 110000; D800; FDD0; 1; ; lt amp; notit xyz; DOCTYPE <!DOCTYPE html PUBLIC SYSTEM
"-//W3C" 'x' [CDATA[ ]]> ? <script> </script> <script </script <title> </title> <style> </style <a <a/ </a <!--<script> é""".split()
PARTS += [" ", "\n", "\t", "\0", "<a ", "\r\n"]
# SVG and MathML: what the rules for foreign content tell apart, in what letters a page may have it
SVG = "svg g path a title desc foreignObject script style tspan clipPath linearGradient font tr td template select input table SVG FOREIGNOBJECT".split()
MATHML = "math mi mo mn ms mtext annotation-xml annotation mrow mglyph malignmark math mi mtext MATH".split()
LEAVING = "b big blockquote body br center code div em h1 head hr i img li meta nobr p pre ruby span table tt u ul var font".split()
FOREIGN_ATTRIBUTES = ["", "", "", " xlink:href=a", " xml:lang=b", " xmlns=c", " viewbox=1", " definitionurl=d", " XLINK:TITLE", " refx=1 refX=2", " color=1", " Face", " size"]
ENCODINGS = ["", "", " encoding=text/html", " ENCODING='TEXT/html'", " encoding=application/XHTML+xml", " encoding=text/plain"]
FOREIGN_PIECES = ["<![CDATA[x]]>", "<![CDATA[a<b>&amp;]]>", "<![CDATA[\0 ]]>", "<![CDATA[]]]]>", "<![cdata[x]]>", "\0", "q\0r", "<![CDATA[", "<!DOCTYPE html>", "<!--c-->"]
CONTEXTS = BLOCKS[:4] + TABLES + HEADS[:8] + ["template", "frameset", "select", "option", "textarea", "form", "b", "svg", "", "Td", "a b"]
FOREIGN_CONTEXTS = ["svg svg", "svg path", "svg desc", "svg title", "svg foreignObject", "svg script", "svg td", "svg template"]
FOREIGN_CONTEXTS += ["math math", "math mi", "math mtext", "math annotation-xml", "math mrow", "math title"]
# tags, and what stands between them
PIECES = re.compile(rb"<[^>]*>|[^<]+|<")


def piece(chance):
    roll = chance.random()
    if roll < 0.45:
        return f"<{chance.choice(NAMES)}{chance.choice(ATTRIBUTES)}>"
    if roll < 0.70:
        return f"</{chance.choice(NAMES)}>"
    if roll < 0.93:
        return chance.choice(TEXTS)
    return chance.choice(OTHER_PIECES + DOCTYPES)


def page(chance, is_bytes, most=30):
    """Returns the bytes of a page of at most so many pieces; where asked for, with random bytes among them, ill-formed as UTF-8."""
    front = chance.choice(DOCTYPES) if chance.random() < 0.3 else ""
    text = (front + "".join(piece(chance) for _ in range(chance.randrange(1, most)))).encode()
    if is_bytes:
        for _ in range(chance.randrange(1, 12)):
            at = chance.randrange(len(text) + 1)
            text = text[:at] + chance.randbytes(chance.randrange(1, 4)) + text[at + chance.randrange(2):]
    return text


def unescaped(text):
    return "".join(SHOWN.get(c, c) for c in text)


def worked_pages():
    """Returns the rows of test_pages, but those in a form or in quirks mode, as the arguments and the bytes that the program takes."""
    rows = []
    for line in (TOP / "crates/test_pages/stdin").read_bytes().decode().split("\n")[1:]:
        if line.count("|") < 2:
            continue
        _, words, page = line.split("|", 2)
        words = dict(it.partition("=")[::2] for it in words.split())
        if "in_form" in words or "quirks" in words:
            continue
        options = [it for word in ("nodes", "held", "input", "steps") if word in words for it in (f"--max-{word}", words[word])]
        if "context" in words:
            options += ["--fragment", unescaped(words["context"])]
        if "encoding" in words:
            options += ["--context-encoding", unescaped(words["encoding"])]
        if "foreign" in words:
            options += ["--foreign", "parse"]
        rows.append((options, unescaped(page).encode()))
    return rows


def parts(chance):
    """Returns the bytes of a page of parts of tags, comments, doctypes and references."""
    return "".join(chance.choices(PARTS, k=chance.randrange(1, 15))).encode()


def foreign_piece(chance):
    if chance.random() < 0.1:
        return chance.choice(FOREIGN_PIECES)
    if chance.random() < 0.3:
        return piece(chance)
    name = chance.choice(SVG + MATHML + LEAVING)
    if chance.random() < 0.35:
        return f"</{name}>"
    return f"<{name}{chance.choice(ENCODINGS if name == 'annotation-xml' else FOREIGN_ATTRIBUTES)}{chance.choice(['', '', '', '/'])}>"


def foreign_page(chance):
    """Returns the bytes of a page with foreign content."""
    front = chance.choice(DOCTYPES + ["<p>", "<b>", "<table>", "<table><td>", "<template>", "<button>"]) if chance.random() < 0.5 else ""
    return (front + chance.choice(["<svg>", "<math>"]) + "".join(foreign_piece(chance) for _ in range(chance.randrange(1, 20)))).encode()


def least(text, differs):
    """Returns a part of a text that differs, of which no piece can be left out."""
    pieces = PIECES.findall(text)
    size = len(pieces)
    while size:
        at = 0
        while at < len(pieces):
            rest = pieces[:at] + pieces[at + size:]
            if differs(b"".join(rest)):
                pieces = rest
            else:
                at += size
        size //= 2
    return b"".join(pieces)


def files(folder):
    """Yields the files .html and .htm below a folder, in order."""
    yield from sorted(it for it in Path(folder).rglob("*.htm*") if it.suffix in (".html", ".htm") and it.is_file())


def module_of(suites, name):
    """Returns a module of the model in a folder of suites."""
    spec = importlib.util.spec_from_file_location(name, Path(suites, "model", f"{name}.py"))
    module = importlib.util.module_from_spec(spec)
    spec.loader.exec_module(module)
    return module


def model_of(suites):
    """Returns the model in a folder of suites, as a module."""
    return module_of(suites, "profile_model")
