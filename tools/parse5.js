// Pages by parse5: for each line of standard input, a context or `-`, a space and a page in base64, one line: the tree in the form of the html5lib tests,
// in base64, and behind a space the names of the tokenizer's errors, with commas between them. Started by against-parse5.
"use strict";
const parse5 = require("parse5");
const {createElement} = parse5.defaultTreeAdapter;
const HTML = "http://www.w3.org/1999/xhtml";
// how the tests write the namespaces of foreign content
const SPACES = {"http://www.w3.org/2000/svg": "svg ", "http://www.w3.org/1998/Math/MathML": "math "};
// errors of tree construction, and of the input stream
const OTHER_ERRORS = new Set([
    "abandoned-head-element-child", "closing-of-element-with-open-child-elements", "disallowed-content-in-noscript-in-head",
    "end-tag-without-matching-open-element", "eof-in-element-that-can-contain-only-text", "misplaced-doctype", "misplaced-start-tag-for-head-element",
    "missing-doctype", "nested-noscript-in-head", "non-conforming-doctype", "non-void-html-element-start-tag-with-trailing-solidus",
    "open-elements-left-after-eof", "control-character-in-input-stream", "noncharacter-in-input-stream", "surrogate-in-input-stream",
]);

function doctype(node) {
    const [publicId, systemId] = [node.publicId ?? "", node.systemId ?? ""];
    const ids = publicId || systemId ? ` "${publicId}" "${systemId}"` : "";
    return `<!DOCTYPE ${node.name ?? ""}${ids}>`;
}

// an attribute of another namespace by its prefix, of which `xmlns` alone has none
function attribute({prefix, namespace, name, value}) {
    return [namespace ? `${prefix || "xmlns"} ${name}` : name, value];
}

function* attributes(node, indent) {
    const sorted = node.attrs.map(attribute).sort(([a], [b]) => (a < b ? -1 : a > b ? 1 : 0));
    for (const [name, value] of sorted) yield `${indent}  ${name}="${value}"\n`;
}

function* lines(node, level) {
    const indent = `| ${"  ".repeat(level)}`;
    if (node.nodeName === "#text") yield `${indent}"${node.value}"\n`;
    else if (node.nodeName === "#comment") yield `${indent}<!-- ${node.data} -->\n`;
    else if (node.nodeName === "#documentType") yield `${indent}${doctype(node)}\n`;
    else {
        yield `${indent}<${SPACES[node.namespaceURI] ?? ""}${node.tagName}>\n`;
        yield* attributes(node, indent);
        if (node.content) {
            yield `${indent}  content\n`;
            for (const child of node.content.childNodes) yield* lines(child, level + 2);
        }
        for (const child of node.childNodes) yield* lines(child, level + 1);
    }
}

function parsed(context, page) {
    const text = new TextDecoder().decode(page), names = [];
    const words = {scriptingEnabled: false, onParseError: ({code}) => OTHER_ERRORS.has(code) || names.push(code)};
    const root = context === "-" ? parse5.parse(text, words) : parse5.parseFragment(createElement(context, HTML, []), text, words);
    return [root.childNodes.flatMap((child) => [...lines(child, 0)]).join(""), names];
}

require("readline").createInterface({input: process.stdin}).on("line", (line) => {
    const [context, page] = line.split(" ");
    const [tree, names] = parsed(context, Buffer.from(page, "base64"));
    console.log(`${Buffer.from(tree).toString("base64")} ${names.join()}`);
});
