"""The one place in which a judge is changed that is written in JavaScript: parse5 7.1.2, Debian's package node-parse5, in a copy.

Each repair has the sentence of the standard that justifies it. The last one makes parse5 differ from the standard as docs/DIFFERENCES.md says
that this library does. Rules of html5ever that are changed for `.ci/html5ever` are in that script.
"""
import collections
import os
import shutil
import subprocess
import sys

FOLDER = "/usr/share/nodejs"
# The sentence, and the replacements: a file, a text in it, and what replaces that text wherever it occurs.
Repair = collections.namedtuple("Repair", "reason replacements")

FUNCTION = "function callAdoptionAgency(p, token) {\n"
METADATA = "case html_js_1.TAG_ID.META:\n        case html_js_1.TAG_ID.STYLE:"
WHITESPACE = "function isWhitespace(cp) {\n    return "
SAME_NAME = "if (tid === elementId && (tid !== html_js_1.TAG_ID.UNKNOWN"
TABLE_OR_HTML = "if (tn === html_js_1.TAG_ID.TABLE || tn === html_js_1.TAG_ID.HTML"
TABLE_TEXT = "tokenInTableText(this, token);"
LATE_DOCTYPE = "misplacedDoctype);\n                break;\n            }\n            case InsertionMode.IN_TABLE_TEXT: {\n                "

REPAIRS = {
    "adoption": Repair(
        "13.2.6.4.7, adoption agency: if the current node is an HTML element whose tag name is subject, and the current node is not in the"
        " list of active formatting elements, then pop the current node off the stack of open elements and return.",
        [("parser/index.js", FUNCTION, FUNCTION + """    const current = p.openElements.current;
    if (p.openElements.currentTagId === token.tagID && !p.activeFormattingElements.entries.some(e => e.element === current)) {
        p.openElements.pop();
        return;
    }
""")],
    ),
    "search": Repair(
        "13.2.4.2: the following elements have varying levels of special parsing rules: .. script, search, section ..; 13.2.6.4.7: a start tag"
        ' whose tag name is one of: .. "search", "section" ..: if the stack has a p element in button scope, then close a p element.',
        [
            ("parser/index.js", "case html_js_1.TAG_ID.SECTION:", "case html_js_1.TAG_ID.SEARCH: case html_js_1.TAG_ID.SECTION:"),
            ("common/html.js", 'TAG_NAMES["SECTION"] = "section";', 'TAG_NAMES["SECTION"] = "section"; TAG_NAMES["SEARCH"] = "search";'),
            (
                "common/html.js", 'TAG_ID[TAG_ID["SECTION"] = 94] = "SECTION";',
                'TAG_ID[TAG_ID["SECTION"] = 94] = "SECTION"; TAG_ID[TAG_ID["SEARCH"] = 994] = "SEARCH";',
            ),
            ("common/html.js", "[TAG_NAMES.SECTION, TAG_ID.SECTION],", "[TAG_NAMES.SECTION, TAG_ID.SECTION], [TAG_NAMES.SEARCH, TAG_ID.SEARCH],"),
            ("common/html.js", "$.SECTION,", "$.SECTION, $.SEARCH,"),
        ],
    ),
    "noframes": Repair(
        '13.2.6.4.7: a start tag whose tag name is one of: "base", "basefont", "bgsound", "link", "meta", "noframes", ..: process the token'
        ' using the rules for the "in head" insertion mode.',
        [("parser/index.js", METADATA, f"case html_js_1.TAG_ID.NOFRAMES: {METADATA}")],
    ),
    "table scope": Repair(
        "13.2.4.2: in table scope, the element types html, table and template end the search.",
        [("parser/open-element-stack.js", f"{TABLE_OR_HTML}) {{", f"{TABLE_OR_HTML} || tn === html_js_1.TAG_ID.TEMPLATE) {{")],
    ),
    "end tags": Repair(
        "13.2.6.4.7, any other end tag: if node is an HTML element with the same tag name as the token, then ..",
        [("parser/index.js", SAME_NAME, SAME_NAME.replace("(", "(p.treeAdapter.getNamespaceURI(element) === html_js_1.NS.HTML && ", 1))],
    ),
    "CR": Repair(
        "13.2.6.4.1 and others: a character token that is one of U+0009, U+000A, U+000C, U+000D or U+0020.",
        [("tokenizer/index.js", WHITESPACE, WHITESPACE + "cp === unicode_js_1.CODE_POINTS.CARRIAGE_RETURN || ")],
    ),
    "CDATA": Repair(
        "13.2.5.42: if there is an adjusted current node and it is not an element in the HTML namespace and the current character is a '['"
        " (parse5 begins no section in an integration point, which is such an element).",
        [(
            "tokenizer/index.js", "            if (this.inForeignNode) {",
            "            const p = this.handler, node = p.openElements.current;\n"
            "            if (node !== p.document && p.treeAdapter.getNamespaceURI(node) !== 'http://www.w3.org/1999/xhtml') {",
        )],
    ),
    "doctype in a table": Repair(
        "docs/DIFFERENCES.md: a doctype after the mode initial doesn't end the text that a table has buffered.",
        [("parser/index.js", LATE_DOCTYPE + TABLE_TEXT, LATE_DOCTYPE)],
    ),
}


def needs_parse5():
    """The folder of parse5, which is installed first if it is missing."""
    path = os.environ.get("NODE_PATH", FOLDER)
    if not os.path.isdir(f"{path}/parse5"):
        subprocess.run(["apt-get", "update"], stdout=subprocess.DEVNULL, check=False)
        subprocess.run(["apt-get", "install", "-y", "node-parse5"], check=True, stdout=subprocess.DEVNULL)
    return path


def repaired_parse5(room):
    """The environment in which node finds a repaired copy of parse5, which is put into a folder."""
    path, copy = needs_parse5(), f"{room}/node_modules/parse5"
    shutil.copytree(f"{path}/parse5", copy)
    for name, old, new in (it for repair in REPAIRS.values() for it in repair.replacements):
        with open(f"{copy}/dist/cjs/{name}", encoding="utf-8") as file:
            text = file.read()
        if old not in text:
            sys.exit("parse5 isn't 7.1.2")
        with open(f"{copy}/dist/cjs/{name}", "w", encoding="utf-8") as file:
            file.write(text.replace(old, new))
    return {**os.environ, "NODE_PATH": f"{room}/node_modules:{path}"}
