"""Parses, cleans and selects HTML, with a formally verified library.

>>> import hengaruto
>>> doc = hengaruto.parse("<title>A page</title><p class=x>One <b>bold</b> word<p>Two")
>>> doc.title
'A page'
>>> [p.text() for p in doc.find_all("p")]
['One bold word', 'Two']
>>> doc.select_first("p.x > b").to_html()
'<b>bold</b>'
>>> hengaruto.clean("<b onclick=x>bold</b><script>y</script>")
'<b>bold</b>'

`parse`, `parse_fragment` and `Parser` return a `Document`, whose nodes are `Node`s. `text`, `links`, `errors`, `meta`, `outline` and
`clean` process a whole page at once. `decode` detects the encoding of a page and decodes it. `hengaruto.trees` makes trees of lxml,
ElementTree and BeautifulSoup.

Scripting is off by default: the content of `noscript` is parsed into elements. A page that is bytes is decoded from the encoding that it
declares, or else from UTF-8; a fragment is UTF-8.
"""
from ._clean import ALLOWED_ATTRIBUTES, ALLOWED_CLASSES, ALLOWED_TAGS, ALLOWED_URL_SCHEMES, clean
from ._encoding import decode
from ._input import Input, Source
from ._library import Error, PolicyError, SelectorError
from ._listings import Heading, PageError, errors, meta, outline
from ._pages import Parser, links, text
from ._search import NameTest, Test
from ._selectors import Selector, SelectorText
from ._tree import (
    COMMENT,
    DOCTYPE,
    DOCUMENT,
    ELEMENT,
    FRAGMENT,
    PROCESSING_INSTRUCTION,
    NAMESPACES,
    TEXT,
    Document,
    Node,
    NodeKind,
    Quirks,
    load,
    parse,
    parse_fragment,
)

__version__ = "0.3.0"

__all__ = [
    "parse", "parse_fragment", "load", "Document", "Node", "NodeKind", "Quirks", "Parser", "Input", "Source", "text", "links", "clean", "decode", "errors",
    "meta", "outline", "Error", "SelectorError", "PolicyError", "PageError", "Heading", "NameTest", "Test", "Selector", "SelectorText",
    "ALLOWED_TAGS", "ALLOWED_ATTRIBUTES", "ALLOWED_CLASSES", "ALLOWED_URL_SCHEMES",
    "ELEMENT", "TEXT", "PROCESSING_INSTRUCTION", "COMMENT", "DOCUMENT", "DOCTYPE", "FRAGMENT", "NAMESPACES",
]
