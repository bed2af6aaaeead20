// Trees by a browser, in the form of the html5lib tests. Handed to the browser by browser.py. A page goes through DOMParser, a fragment through innerHTML:
// in both scripts are off, nothing is loaded, and shadow roots are not declared.
"use strict";
const HTML = "http://www.w3.org/1999/xhtml", SVG = "http://www.w3.org/2000/svg", MATHML = "http://www.w3.org/1998/Math/MathML";
const ELEMENTS = {[HTML]: "", [SVG]: "svg ", [MATHML]: "math "};
const ATTRIBUTES = {"http://www.w3.org/1999/xlink": "xlink ", "http://www.w3.org/XML/1998/namespace": "xml ", "http://www.w3.org/2000/xmlns/": "xmlns "};
// Chromium puts a text of more UTF-16 code units than these into several nodes
const MOST_OF_TEXT = 65536;

// The children of a node, with texts joined that the browser has cut.
function* children(node) {
    for (let child = node.firstChild; child; child = child.nextSibling) {
        if (child.nodeType !== Node.TEXT_NODE) { yield [child]; continue; }
        let data = child.data;
        for (let last = child.length; last >= MOST_OF_TEXT - 1 && child.nextSibling?.nodeType === Node.TEXT_NODE; last = child.length) {
            child = child.nextSibling;
            data += child.data;
        }
        yield [child, data];
    }
}

function doctype(node) {
    const ids = node.publicId || node.systemId ? ` "${node.publicId}" "${node.systemId}"` : "";
    return `<!DOCTYPE ${node.name}${ids}>`;
}

function* attributes(node, indent) {
    const named = [...node.attributes].map((it) => [(ATTRIBUTES[it.namespaceURI] ?? "") + it.localName, it.value]);
    for (const [name, value] of named.sort(([a], [b]) => (a < b ? -1 : a > b ? 1 : 0))) yield `${indent}  ${name}="${value}"\n`;
}

function lines(root) {
    const out = [], stack = [];
    const descend = (node, level) => { for (const it of [...children(node)].reverse()) stack.push([it, level]); };
    descend(root, 0);
    while (stack.length) {
        const [[node, data], level] = stack.pop(), indent = `| ${"  ".repeat(level)}`;
        if (node === "content") {
            out.push(`${indent}content\n`);
        } else if (node.nodeType === Node.TEXT_NODE) {
            out.push(`${indent}"${data}"\n`);
        } else if (node.nodeType === Node.COMMENT_NODE) {
            out.push(`${indent}<!-- ${node.data} -->\n`);
        } else if (node.nodeType === Node.DOCUMENT_TYPE_NODE) {
            out.push(`${indent}${doctype(node)}\n`);
        } else if (node.nodeType === Node.ELEMENT_NODE) {
            out.push(`${indent}<${ELEMENTS[node.namespaceURI]}${node.localName}>\n`, ...attributes(node, indent));
            descend(node, level + 1);
            if (node.content instanceof DocumentFragment) {
                descend(node.content, level + 2);
                stack.push([["content"], level + 1]);
            }
        } else {
            out.push(`${indent}node of type ${node.nodeType}: ${node.nodeName} ${node.data}\n`);
        }
    }
    return out.join("");
}

// A context is the name of an HTML element, or `svg NAME` or `math NAME`.
function contextElement(context) {
    const owner = new DOMParser().parseFromString("<!DOCTYPE html>", "text/html");
    const [first, name] = context.split(" ");
    return name ? owner.createElementNS(first === "svg" ? SVG : MATHML, name) : owner.createElement(first);
}

function parsed(page, context) {
    if (context === null) return new DOMParser().parseFromString(page, "text/html");
    const element = contextElement(context);
    element.innerHTML = page;
    return element.content instanceof DocumentFragment ? element.content : element;
}

// The trees of pages: of each its bytes in base64, and its context or null.
function trees(pages) {
    return pages.map(([page, context]) => {
        const bytes = Uint8Array.from(atob(page), (it) => it.charCodeAt(0));
        return lines(parsed(new TextDecoder().decode(bytes), context));
    });
}
