"""Inputs for comparisons of tree builders: lists of tokens, as lines of `h5 tokens`, and texts, as `h5 tree` and `h5 html` read them."""
import random

# Tags that are in each other's rules.
TOPICS = [
    "a b i u em font nobr big small code strong tt strike applet object marquee p div",
    "table caption colgroup col tbody thead tfoot tr td th input form script",
    "template table tr td col caption tbody div p body",
    "svg math mi mo mn ms mtext annotation-xml mglyph malignmark foreignobject desc title font path b span p g style",
    "select option optgroup hr input button keygen textarea selectedcontent div p",
    "html head body frameset frame noframes br p",
    "form button input fieldset label img output object textarea select p",
    "h1 h2 h3 h6 p div center ul li dl dd dt ol dir menu address search",
    "ruby rb rt rtc rp span p",
    "title style script noscript base link meta basefont bgsound head template noframes",
    "br hr image img area embed wbr pre listing plaintext xmp iframe noembed isindex param source track x-y",
    "details summary dialog section article main hgroup figure figcaption search nav aside p li",
]
TOPICS = [topic.split() for topic in TOPICS]
ATTRIBUTES = [
    "id a", "id b", "class c", "type hidden", "type HIDDEN", "type text", "form f", "color red", "face f", "size 1", "encoding text/html",
    "encoding TEXT/html", "encoding application/xhtml+xml", "encoding text/plain", "xlink:href h", "xlink:type t", "xml:lang en",
    "xml:base b", "xmlns n", "xmlns:xlink n", "definitionurl d", "viewbox v", "attributename n", "shadowrootmode open",
    "shadowrootmode closed", "shadowrootmode", "charset utf-8", "http-equiv content-type", "http-equiv Content-Type",
    "content text/html;charset=x", 'content charset = "y"z', "content charset", "content charset='q", "value \\n\\t\\\\&<\"", "empty",
]
# The attributes that the rules of a tag look at, by the tag.
LOOKED_AT = {
    "annotation-xml": ["encoding "], "font": ["color ", "face ", "size "], "template": ["shadowrootmode"], "input": ["type ", "form "],
    "meta": ["charset ", "http-equiv ", "content "], "link": ["charset "], "base": ["charset "], "bgsound": ["charset "],
    "basefont": ["charset "], "svg": ["viewbox ", "xlink:", "xmlns"], "path": ["attributename ", "xml:"],
    "math": ["definitionurl ", "xlink:"], "button": ["form "], "img": ["form "], "b": ["id ", "class "], "a": ["id "],
    "html": ["id ", "class "], "body": ["id ", "class "],
}
TEXTS = [
    " ", "\\n", "\\t\\f ", "x", "yz", " x", "x ", " x y ", "\\nx", "\\n\\nx", "\u00a0", "\\0", "x\\0 ", "&<>\"'", "\\\\", "\\r", "",
    "\u00e9\u4e2d",
]
PUBLIC = [
    "-//W3C//DTD HTML 4.01//EN", "-//W3C//DTD HTML 4.01 Transitional//EN", "-//W3C//DTD HTML 4.01 Frameset//EN",
    "-//W3C//DTD XHTML 1.0 Frameset//EN", "-//W3C//DTD XHTML 1.0 Transitional//EN", "-//W3C//DTD HTML 3.2//EN", "-//IETF//DTD HTML 2.0//EN",
    "HTML", "html", "-/W3C/DTD HTML 4.0 Transitional/EN", "x", "",
]
SYSTEM = [
    "about:legacy-compat", "http://www.ibm.com/data/dtd/v11/ibmxhtml1-transitional.dtd", "http://www.w3.org/TR/html4/strict.dtd", "x", "",
]

# Each is a list of tokens; a comma is between tokens, a semicolon between the lines of one.
PREFIXES = """
D html; D x; D html;Dq; Z; C c; S html; S html, S head; S html, S head, E head; E head; S body; S body, E body; S body, E html; E html
S frameset; S frameset, S frame, E frameset; S frameset, E frameset, E html; S noscript; S title; S textarea; S pre; S script
S plaintext; S p; S div, S p; S b; S b, S p; S b, S i, S p; S b, S b, S b, S b; S b, S div, S i, S div; S a; S a, S div; S a, S table
S nobr, S p; S b, S p, E b; S i, S b, E i; S font;A size 1, S font;A size 2; S applet, S b; S object, S p; S marquee, S a; S button
S button, S p; S h1; S h1, S p; S h1, S b; S address, S p; S pre, T \\n; S ul, S li; S ul, S li, S b; S ul, S li, S ul; S li, S div
S li, S p, S b; S dl, S dd; S dl, S dt, S b; S ruby, S rt; S ruby, S rtc, S rp; S ruby, S rb, S span; S form; S form, S div
S form, S table; S template, S form; S fieldset, S form; S option; S select; S select, S option; S select, S optgroup, S option
S select, S div, S button; S select, S p, S hr; S table; S table, T x; S table, S caption; S table, S caption, S b; S table, S colgroup
S table, S tbody; S table, S thead; S table, S tfoot; S table, S tbody, S tr; S table, S tr, S td; S table, S tr, S th, S p
S table, S tr, S td, S table; S table, S tr, S td, S b, S table, S tr; S b, S table, S tr; S table, S form; S table, S select
S table, S input;A type hidden; S table, S script, E script; S table, S style, E style, T x; S table, S svg; S table, S math, S mi
S template; S template, S tr; S template, S td; S template, S col; S template, S caption; S template, S tbody; S template, S div
S template, S template; S template, T x; S template, S option; S template, S li; S head, S template; S table, S template
S table, S tr, S template, S td; S frameset, S template; S div, S template;A shadowrootmode open; S svg; S svg, S g; S svg, S desc
S svg, S desc, S b; S svg, S title, S p; S svg, S foreignobject, S div; S svg, S font; S svg, S script; S svg, S style, T x
S p, S svg, S a; S math; S math, S mi; S math, S mtext, S p; S math, S mo, S mglyph; S math, S annotation-xml
S math, S annotation-xml, S svg; S math, S annotation-xml;A encoding text/html; S math, S annotation-xml;A encoding text/html, S p
S li, S math, S ms; S li, S svg, S foreignobject; S li, S math, S annotation-xml; S search, S p; S p, S search; S li, S search; S keygen
S isindex; S details, S summary; S hgroup, S h2; S main, S section, S b; S body, T x, E html; S body, E body, C c
S frameset, E frameset, C c; X
"""
SUFFIXES = [
    "T x, S p, T y, Z", "E b, S td, T x, E p, S li, C c, Z", "T \\n, E table, S b, E template, N, S tr, T z",
    "E li, S option, E svg, T w, S dd, E div, S frameset, Z",
]
# What is tried after each prefix, besides each tag; a semicolon is between the lines of a token.
OTHERS = [
    "T x", "T  ", "T  x", "C c", "N", "Z", "X", "P e", "D html", "D x", "S br;/", "E br;/", "S svg;/", "S math;/", "S path;/",
    "S input;A type hidden", "S font;A color c", "S template;A shadowrootmode closed", "S html;A id a", "S body;A id a",
    "S meta;A charset c", "S link;A charset c", "S annotation-xml;A encoding text/html", "S img;A form f",
]


def tokens_of(words):
    """The tokens of a line of the tables above; each is a list of lines."""
    return [token.strip(" ").split(";") for token in words.split(", ")]


def prefixes():
    """The empty list, and those of the table."""
    return [[], *(tokens_of(part) for line in PREFIXES.strip("\n").split("\n") for part in line.split("; "))]


def text_of(tokens):
    """The input of `h5 tokens`."""
    return "".join(f"{line}\n" for token in tokens for line in token)


def doctype(chance):
    lines = [chance.choice(["D html", "D html", "D html", "D HTML", "D x", "D"])]
    lines += [f"Dp {chance.choice(PUBLIC)}"] if chance.random() < 0.4 else []
    lines += [f"Ds {chance.choice(SYSTEM)}"] if chance.random() < 0.3 else []
    return [*lines, *(["Dq"] if chance.random() < 0.1 else [])]


def attributes(chance, name):
    """Lines of attributes, with different names."""
    looked_at = [it for it in ATTRIBUTES if it.startswith(tuple(LOOKED_AT.get(name, ["?"])))]
    lines, many = {}, 0.5 if looked_at else 0.08
    while chance.random() < many:
        line = chance.choice(looked_at if looked_at and chance.random() < 0.8 else ATTRIBUTES)
        lines.setdefault(line.split(" ")[0], f"A {line}")
    return list(lines.values())


def tag(chance, names, opened):
    if chance.random() < 0.38:
        name = chance.choice(opened[-5:]) if opened and chance.random() < 0.65 else chance.choice(names)
        return [f"E {name}", *(["/"] if chance.random() < 0.02 else [])]
    name = chance.choice(names)
    opened.append(name)
    return [f"S {name}", *attributes(chance, name), *(["/"] if chance.random() < 0.06 else [])]


def token(chance, names, opened):
    kind = chance.random()
    if kind < 0.74:
        return tag(chance, names, opened)
    if kind < 0.89:
        return [f"T {chance.choice(TEXTS)}"]
    if kind < 0.93:
        return [f"C {chance.choice(['c', '', 'a-b'])}"]
    if kind < 0.96:
        return ["N"]
    if kind < 0.98:
        return doctype(chance)
    return chance.choice([["P error"], ["Z"], ["Z"], ["X"]])


def random_list(chance, tags):
    """A list of tokens: most of them are tags of a few topics, the others any tags."""
    names = [it for topic in chance.sample(TOPICS, chance.choice([1, 1, 2, 2, 3])) for it in topic]
    names += chance.sample(tags, chance.choice([0, 2, 10]))
    tokens, opened = [], []
    if chance.random() < 0.35:
        tokens.append(doctype(chance))
    if chance.random() < 0.3:
        tokens += chance.choice(prefixes())
        opened += [it[0][2:] for it in tokens if it[0].startswith("S ")]
    tokens += [token(chance, names, opened) for _ in range(chance.choice([2, 4, 7, 10, 15, 22, 40]))]
    return text_of([*tokens, *([["Z"]] if chance.random() < 0.6 else [])])


def grid(tags):
    """Each tag, and each other token, after each prefix and before each suffix."""
    tried = [*(f"{kind} {name}" for name in sorted(tags) for kind in "SE"), *OTHERS]
    for at, prefix in enumerate(prefixes()):
        for number, it in enumerate(tried):
            # One suffix each: after a prefix all of them in turn, and after a tag too.
            suffix = SUFFIXES[(number + at) % len(SUFFIXES)]
            yield text_of([*prefix, it.split(";"), *tokens_of(suffix)])


# Parts of texts: what follows the name of a start tag, what is between tags, comments and sections, and parts of doctypes.
AFTER_NAME = [
    "", "", "", "", " id=a", " id=a ID=b", ' v="x&amp;y&quot;"', " v='<&nbsp;>'", " v = w", " v=", " =v", "/v", " v/=w", "\n\tv\f=\r\nw",
    " v=a/", " v\0=\0", " v=\"a'b\" c='d\"e'",
]
BETWEEN_TAGS = [
    "x", " ", "x y", "&amp;", "&lt", "&lt;", "&gt;", "&quot;", "&nbsp;", "&copy;", "&#65;", "&am", "\n", "\r\n", "\r", "\0", "<", "</",
    "</1", "<!", "<?x>", "\ufeff", "]]>", "-->", "\u00e9\U0001f600",
]
COMMENTS = [
    "<!--c-->", "<!---->", "<!-->", "<!--->", "<!--a--b--!>-->", "<!--\0-->", "<!--", "<!-", "<![CDATA[x<b>]]>", "<![CDATA[\0]]>",
    "<![CDATA[", "<![CDATA",
]
DOCTYPES = [
    "<!DOCTYPE html", "<!doctype HTML", "<!DOCTYPEhtml", "<!DOCTYPE", "<!DOCTYPE h\0", "<!DOCTYPE html x", '<!DOCTYPE html PUBLIC "x"',
    "<!DOCTYPE html public 'x' \"y\"", '<!DOCTYPE html SYSTEM"y"', '<!DOCTYPE html PUBLIC"x"z', "<!DOCTYPE html system 'a>b'",
    '<!DOCTYPE html PUBLIC "-//W3C//DTD HTML 4.01 Frameset//EN" "y" ',
]


def random_text(chance, tags):
    """A context, or none for a document, and a text for the plain tokenizer: tags in all spellings, references, comments, doctypes."""
    context = chance.choice(CONTEXTS) if chance.random() < 0.5 else ""
    names = [it for topic in chance.sample(TOPICS, chance.choice([1, 2, 3])) for it in topic] + chance.sample(tags, 2)
    parts = []
    for _ in range(chance.choice([1, 3, 6, 12, 20])):
        kind, name = chance.random(), chance.choice(names)
        name = name.upper() if chance.random() < 0.08 else name
        end = chance.choice([">"] * 14 + ["", "/>", " >"])
        if kind < 0.42:
            parts.append(f"<{name}{chance.choice(AFTER_NAME)}{end}")
        elif kind < 0.62:
            parts.append(f"</{name}{chance.choice(['', '', ' ', ' v=w', '/'])}{end}")
        elif kind < 0.84:
            parts.append(chance.choice(BETWEEN_TAGS))
        elif kind < 0.94:
            parts.append(chance.choice(COMMENTS))
        else:
            parts.append(chance.choice(DOCTYPES) + end)
    return context, "".join(parts)


CONTEXTS = (
    "a body button caption colgroup div form frameset head html iframe li math noembed noscript option p plaintext pre script select style"
    " svg table tbody td template textarea title tr xmp"
).split()


def seeded(seed, kind):
    return random.Random(f"{kind} {seed}")
