#!/usr/bin/env python3
"""Writes data/page.dat: a page of about 100 KB, and the HTML of its tree.

    write_page.py           writes the file if it differs
    write_page.py --check   writes nothing; the status is 1 if the file differs

Each part of the page is here twice: as it is written, and as its HTML has to be. The HTML was thought out by hand, from what the
plain tokenizer and the tree builder have to do; nothing here reads the page. Each element that is opened is closed, or the rules
close it.
"""

import os
import re
import sys

FILE = os.path.join(os.path.dirname(os.path.abspath(__file__)), "data/page.dat")
SECTIONS = 29
LINE_ENDS = ["\n", "\r\n", "\r"]
NAMES = ["Aldermoor", "Bréhat", "Cape Wrath", "Długi Ostrów", "Eddystone", "Fårö", "Górki", "灯台", "Høgsteinen"]
NAMES += ["Île Vierge", "Маяк"]
KEEPERS = ["Ann Orme", "J. de Vries", "Søren Bø", "María Peña", "Old Tom", "K. Öztürk", "two sisters"]
SEAS = ["a grey sea", "shallow sands", "the narrow strait", "a harbour without a mole", "rocks that no chart shows"]
LAMPS = ["whale oil", "coal in an open grate", "paraffin", "gas", "an arc lamp", "a lens of the second order"]
SENTENCES = [
    "The first tower was of timber, and burnt in its ninth winter.",
    "It took three summers to bring the stone, since no boat could land in a swell.",
    "From the gallery one sees the whole bay, and on clear nights the next light.",
    "The log of those years is kept in the town, in four thick volumes.",
    "Each stair is cut from one block; there are no two of the same height.",
    "Ships' masters complained that the lamp was put out before dawn to save oil.",
    "A bell was hung for fog, and rung by hand until a spring was found that could.",
    "When the road came, the keepers were the last to leave the island.",
]


def pick(choices, number):
    return choices[number % len(choices)]


def same(text):
    """A part whose HTML is what is written."""
    return (text, text)


def prose(number, count):
    return " ".join(pick(SENTENCES, number * 3 + k * 5) for k in range(count))


def heading(n):
    name = pick(NAMES, n)
    return [
        (f"<section id=s{n} data-number='{n}'>\n", f'<section id="s{n}" data-number="{n}">\n'),
        (
            f"<H2 Class=title>{n}. The light of {name} &amp; its keepers</H2>\n",
            f'<h2 class="title">{n}. The light of {name} &amp; its keepers</h2>\n',
        ),
    ]


def references(n):
    keeper, sea = pick(KEEPERS, n), pick(SEAS, n)
    return [
        ("<p class='lead'>", '<p class="lead">'),
        (
            f"The tower stands &quot;{90 + n} feet&quot; high, &lt;more or less&gt;, above {sea};",
            f'The tower stands "{90 + n} feet" high, &lt;more or less&gt;, above {sea};',
        ),
        (
            f" {keeper}&nbsp;({1800 + n}&ndash;{1830 + n}) had &pound;{n} a year & coal,",
            f" {keeper}&nbsp;({1800 + n}&amp;ndash;{1830 + n}) had &amp;pound;{n} a year &amp; coal,",
        ),
        (
            f" &copy; &#65;&#x42; &amp &lt; &lt {n} &AMP; &;&&amp;&amp;amp; R&D.\u00a0",
            f" &amp;copy; &amp;#65;&amp;#x42; &amp;amp &lt; &amp;lt {n} &amp;AMP; &amp;;&amp;&amp;&amp;amp; R&amp;D.&nbsp;",
        ),
        same(prose(n, 3)),
        same("</p>\n"),
    ]


def links(n):
    name = pick(NAMES, n + 1)
    return [
        same("<p>See "),
        (
            f"<a href=/towers/{n}/ title = \"The &quot;{name}&quot; light\">{name}</a>, ",
            f'<a href="/towers/{n}/" title="The &quot;{name}&quot; light">{name}</a>, ',
        ),
        (
            f"<A HREF='/find?q={n}&amp;page=2' Title=''>the second page</A>, ",
            f'<a href="/find?q={n}&amp;page=2" title="">the second page</a>, ',
        ),
        (
            f'<a href="/b?x={n}&y=2&copy=3"rel=next>a list</a > and ',
            f'<a href="/b?x={n}&amp;y=2&amp;copy=3" rel="next">a list</a> and ',
        ),
        (
            f"<a\n  href = '#s{n}'\n  title=\"two\n\tlines, it's > one\"\n>this place</a\n>.",
            f'<a href="#s{n}" title="two\n\tlines, it\'s &gt; one">this place</a>.',
        ),
        same("</p>\n"),
    ]


def images(n):
    return [
        same("<p>"),
        (
            f"<img src=\"/pictures/{n}.png\" ALT='the \"tower\" & its\u00a0sea' width={100 + n} hidden/></img>",
            f'<img src="/pictures/{n}.png" alt="the &quot;tower&quot; &amp; its&nbsp;sea" width="{100 + n}" hidden="">',
        ),
        (f"<img src=plan-{n}.png/></img>", f'<img src="plan-{n}.png/">'),
        (f"<IMG/alt/src='x{n}'/ /></img>", f'<img alt="" src="x{n}">'),
        ("</p  class=ignored id='a>b'>\n", "</p>\n"),
    ]


def item(n, k):
    return [
        (f"<li id=i{n}-{k} ID='other' iD=\"third\" class=a Class=b>", f'<li id="i{n}-{k}" class="a">'),
        same(f"{pick(LAMPS, n + k)}, <em>{1700 + 10 * k + n}</em>"),
        ("</li class=ignored>\n", "</li>\n"),
    ]


def nested_list(n, depth):
    if depth == 0:
        return item(n, 0)
    parts = [(f"<ul class=depth{depth}>\n", f'<ul class="depth{depth}">\n')]
    for k in range(2):
        parts += item(n, depth * 2 + k)
    parts += [same("<li>below this:\n")]
    if depth == 1:
        # An item directly in an item closes it, and the next end tag has nothing to close.
        parts += [("", "</li>"), *nested_list(n, 0), ("</li/>\n", "\n")]
    else:
        parts += [*nested_list(n, depth - 1), ("</li/>\n", "</li>\n")]
    return parts + [("</UL >\n", "</ul>\n")]


def lists(n):
    if n % 3 == 0:
        return nested_list(n, 3)
    parts = [("<ol start=3 reversed>\n", '<ol start="3" reversed="">\n')]
    for k in range(n % 4 + 1):
        parts += item(n, k)
    return parts + [same("</ol>\n")]


def row(n, k):
    return [
        (f"<tr><td>{pick(NAMES, n + k)}</td>", f"<tr><td>{pick(NAMES, n + k)}</td>"),
        (
            f"<td align=right>{30 + (n * 7 + k * 13) % 60}</td><td>&lt;{k}&gt;</td></tr>\n",
            f'<td align="right">{30 + (n * 7 + k * 13) % 60}</td><td>&lt;{k}&gt;</td></tr>\n',
        ),
    ]


def table(n):
    parts = [
        ("<table border=1>\n<caption>Heights</caption>\n", '<table border="1">\n<caption>Heights</caption>\n'),
        (
            "<thead><tr><th scope=col>Light</th><th scope=\"col\">Feet</th><th scope='col'>Rank</th></tr></thead>\n",
            '<thead><tr><th scope="col">Light</th><th scope="col">Feet</th><th scope="col">Rank</th></tr></thead>\n',
        ),
        same("<tbody>\n<!-- rows -->\n"),
    ]
    for k in range(n % 5 + 2):
        parts += row(n, k)
    return parts + [same("</tbody>\n</table>\n")]


def comments(n):
    return [
        same(f"<!-- section {n} - a -- b -> c > d <p>not one</p> &amp; -->\n"),
        same("<!----><!-- three dashes --->"),
        ("<!-- a NUL: \0 -->\n", "<!-- a NUL: \ufffd -->\n"),
        same("<!-- on\nthree\nlines -->\n"),
    ]


def marks(n):
    return [
        same("<p>"),
        (
            f"{n} < {n + 1}, x<3, a <- b, <>, </>, </{n}, </ p>, <!x{n}>, <!->, <!DOC>, ",
            f"{n} &lt; {n + 1}, x&lt;3, a &lt;- b, &lt;&gt;, &lt;/&gt;, &lt;/{n}, &lt;/ p&gt;, &lt;!x{n}&gt;, &lt;!-&gt;, &lt;!DOC&gt;, ",
        ),
        (
            f"<?echo {n} ?>, <![CDATA[a{n} > b]]> and <été>",
            f"&lt;?echo {n} ?&gt;, &lt;![CDATA[a{n} &gt; b]]&gt; and &lt;été&gt;",
        ),
        ("; dro\0pped, <!DOCTYPE html PUBLIC 'x' \"y\">left out", "; dropped, left out"),
        same("</p>\n"),
    ]


def odd_tags(n):
    return [
        (
            "<p =x=1 a\"b=c d'e / f = g/h title=\"\0&NBSP;\">",
            '<p =x="1" a"b="c" d\'e="" f="g/h" title="\ufffd&amp;NBSP;">',
        ),
        (
            f"<X-Note Kind = tip><span class=\"icon\" />i</span>{n}</x-NOTE>",
            f'<x-note kind="tip"><span class="icon">i</span>{n}</x-note>',
        ),
        ("<Café LANG=fr>crème</CAFé> <o:p></o:p>", '<café lang="fr">crème</café> <o:p></o:p>'),
        ("<span>a<x-y>b</span>c</x-y></nothing>d", "<span>a<x-y>b</x-y></span>cd"),
        same("</p>\n"),
    ]


def form(n):
    return [
        (
            f"<form action=/go method='get'><label for=q{n}>Find</label> ",
            f'<form action="/go" method="get"><label for="q{n}">Find</label> ',
        ),
        (
            f"<input type=text name=q id=q{n} value=\"a &lt; b\" disabled></input>",
            f'<input type="text" name="q" id="q{n}" value="a &lt; b" disabled="">',
        ),
        ("<button type=submit>Go</button></form>\n", '<button type="submit">Go</button></form>\n'),
    ]


def quotation(n):
    return [
        same(f"<blockquote>\n<p>{prose(n + 1, 4)}</p>\n<footer>{pick(KEEPERS, n + 2)}, “letters” 🗼</footer>\n</blockquote>\n"),
        ("<hr class=thin></hr>\n", '<hr class="thin">\n'),
        same(f"<pre>  N\n W + E   {n}\n  S\n</pre>\n<dl><dt>Lamp</dt><dd>{pick(LAMPS, n)}</dd></dl>\n"),
    ]


def raw_texts(n):
    """Texts in which no tags stand, and of which some know no references either."""
    return [
        (f"<style media=all>\np > b {{ width: {n}px }} /* &lt; <p> */\n</style>\n", f'<style media="all">\np > b {{ width: {n}px }} /* &lt; <p> */\n</style>\n'),
        (f"<script>if (a < {n} && b) s = '<b>\0</b></scrip>';</SCRIPT\n>\n", f"<script>if (a < {n} && b) s = '<b>\ufffd</b></scrip>';</script>\n"),
        (
            f"<p><textarea name=note>\n{n} &lt; <b> & &quot;a&quot;\n</textarea >",
            f'<p><textarea name="note">{n} &lt; &lt;b&gt; &amp; "a"\n</textarea>',
        ),
        (f"<iframe src=/{n}><p>&amp;</iframe>", f'<iframe src="/{n}"><p>&amp;</iframe>'),
        same("<noembed><b>&lt;</noembed>"),
        same("<noscript><i>&nbsp;</noscript>"),
        (f"<xmp>\n{n} &lt; <b></xmp>", f"</p><xmp>\n{n} &lt; <b></xmp>"),
        (f"<listing>\n\n{n}</listing>\n", f"<listing>\n{n}</listing>\n"),
        (f"<pre>\n<b>{n}</b>\n</pre><pre> \n</pre>\n", f"<pre><b>{n}</b>\n</pre><pre> \n</pre>\n"),
    ]


def choices(n):
    name = pick(NAMES, n)
    return [
        (
            f"<form><p><select name=s{n}><option>{name}<option selected>b<optgroup label=g><option>c<hr><option>d</select>",
            f'<form><p><select name="s{n}"><option>{name}</option><option selected="">b</option>'
            '<optgroup label="g"><option>c</option></optgroup><hr><option>d</option></select>',
        ),
        ("<input type=hidden name=h><image src=a>", '<input type="hidden" name="h"><img src="a">'),
        (
            "<button>a<p>b</button><button>c<button>d</button></p>",
            "<button>a<p>b</p></button><button>c</button><button>d</button></p>",
        ),
        ("<form></form>\n", "</form>\n"),
    ]


def embedded(n):
    return [
        (
            f"<p><ruby>灯台<rp>(<rt>tōdai<rp>)</ruby> <b>x<applet code={n}><i>y</applet>z</b>",
            f'<p><ruby>灯台<rp>(</rp><rt>tōdai</rt><rp>)</rp></ruby> <b>x<applet code="{n}"><i>y</i></applet>z</b>',
        ),
        (f"<object data=x><param name=a>{n}</object>", f'<object data="x"><param name="a">{n}</object>'),
        ("<dl><dt>a<dd>b<dt>c</dl>", "</p><dl><dt>a</dt><dd>b</dd><dt>c</dt></dl>"),
        ("<ul><li>a<div><li>b</ul>\n", "<ul><li>a<div></div></li><li>b</li></ul>\n"),
    ]


def templates(n):
    return [
        (
            f"<template id=t{n}><tr><td>{n}<td>x</template>\n",
            f'<template id="t{n}"><tr><td>{n}</td><td>x</td></tr></template>\n',
        ),
        ("<p>a<template><p>b<b>c</template>d</p>\n", "<p>a<template><p>b<b>c</b></p></template>d</p>\n"),
        (
            f"<table><template><td>{n}</template><tr><td>x</table>\n",
            f"<table><template><td>{n}</td></template><tbody><tr><td>x</td></tr></tbody></table>\n",
        ),
        (
            f"<div><template shadowrootmode=open><slot>{n}</template></div>\n",
            f'<div><template shadowrootmode="open"><slot>{n}</slot></template></div>\n',
        ),
    ]


def fostered(n):
    """What may not stand in a table stands before it."""
    return [
        (
            f"<table>a<tr><td>{n}</td>b</tr><i>c</i></table>\n",
            f"ab<i>c</i><table><tbody><tr><td>{n}</td></tr></tbody></table>\n",
        ),
        (
            "<table> <tr> <td>x</td> </tr> </table>\n",
            "<table> <tbody><tr> <td>x</td> </tr> </tbody></table>\n",
        ),
        ("<table><b>x<tr><td>y</table></b>\n", "<b>x</b><table><tbody><tr><td>y</td></tr></tbody></table>\n"),
        (
            f"<table><input type=hidden><input name=a{n}></table>\n",
            f'<input name="a{n}"><table><input type="hidden"></table>\n',
        ),
        (
            "<table><caption>a<p>b</caption><col span=2><td>c</table>\n",
            '<table><caption>a<p>b</p></caption><colgroup><col span="2"></colgroup><tbody><tr><td>c</td></tr></tbody></table>\n',
        ),
    ]


def drawings(n):
    return [
        (f'<svg viewbox="0 0 {n} 1"><g/><title>t\0</title>', f'<svg viewBox="0 0 {n} 1"><g></g><title>t</title>'),
        (
            f"<foreignobject><p>{n}</p></foreignobject><desc>d<b>e</b></desc>",
            f"<foreignObject><p>{n}</p></foreignObject><desc>d<b>e</b></desc>",
        ),
        ("<![CDATA[a<b>&amp;]] >]]>\0<circle r=1 /></circle>", 'a&lt;b&gt;&amp;amp;]] &gt;\ufffd<circle r="1"></circle>'),
        (f"<a xlink:href='#{n}' xml:lang=e>x</A></svg>\n", f'<a xlink:href="#{n}" xml:lang="e">x</a></svg>\n'),
        ("<svg><rect><p>out</p>\n", "<svg><rect></rect></svg><p>out</p>\n"),
        ("<svg><font>in</font><font color=c>out</font>\n", '<svg><font>in</font></svg><font color="c">out</font>\n'),
        (
            f"<math><mi definitionurl=u{n}>x</mi><annotation-xml encoding=text/html><p>y</p></annotation-xml>",
            f'<math><mi definitionURL="u{n}">x</mi><annotation-xml encoding="text/html"><p>y</p></annotation-xml>',
        ),
        ("<mtext><b>z</b></mtext><![CDATA[&lt;]]></math>\n", "<mtext><b>z</b></mtext>&amp;lt;</math>\n"),
    ]


def misnested(n):
    return [
        (f"<p>1<b>2<i>{n}</b>4</i>5</p>\n", f"<p>1<b>2<i>{n}</i></b><i>4</i>5</p>\n"),
        (f"<b>1<p>{n}</b>3</p>\n", f"<b>1</b><p><b>{n}</b>3</p>\n"),
        (f"<a href=x>1<a href=y>{n}</a>\n", f'<a href="x">1</a><a href="y">{n}</a>\n'),
        ("<nobr>a<nobr>b</nobr>\n", "<nobr>a</nobr><nobr>b</nobr>\n"),
        (
            "<p><b><b><b><b>x</p>y</b></b></b></b>\n",
            "<p><b><b><b><b>x</b></b></b></b></p><b><b><b>y</b></b></b>\n",
        ),
        ("<h3>a<h4>b</h5>\n", "<h3>a</h3><h4>b</h4>\n"),
    ]


def story(n):
    return [same(f"<p>{prose(n + 5, 4 + n % 4)}</p>\n")]


def with_line_ends(parts, line_end):
    return [(written.replace("\n", line_end), wanted) for written, wanted in parts]


def section(n):
    parts = heading(n) + references(n) + story(n) + links(n)
    parts += pick([images, table, quotation], n)(n) + lists(n) + comments(n) + marks(n)
    parts += pick([odd_tags, form], n)(n) + story(n + 1) + pick([table, images], n)(n)
    parts += pick([raw_texts, choices, embedded], n)(n)
    parts += pick([templates, fostered, drawings, misnested], n)(n)
    return with_line_ends(parts + [("</Section>\n", "</section>\n")], pick(LINE_ENDS, n))


def front():
    return [
        ("\ufeff<!-- Lights - a page made by hand -->\r\n", "<!-- Lights - a page made by hand -->"),
        ("<!doctype HTML>\r\n", "<!DOCTYPE html>"),
        (" <html LANG=en>\n ", '<html lang="en">'),
        ("<head id=h>\r<title>Lights &amp; <b>towers</b>\r\n</title>", '<head id="h">\n<title>Lights &amp; &lt;b&gt;towers&lt;/b&gt;\n</title>'),
        ("<style>b > i {}</style><noscript>no <b></noscript>\r\n", "<style>b > i {}</style><noscript>no <b></noscript>\n"),
        ("<base href=/><bgsound></head >\r<link rel=home href=/>\r\n", '<base href="/"><bgsound><link rel="home" href="/"></head>\n\n'),
        ("<body CLASS='page wide'>\n<h1>Lights</h1>\n", '<body class="page wide">\n<h1>Lights</h1>\n'),
    ]


def back():
    """What follows the end of the body: whitespace goes into the body, and the unfinished tag is dropped."""
    return [
        ("</body>\r</html>\r\n<!-- end - of -- page -->\n", "\n\n\n</body></html><!-- end - of -- page -->"),
        ("<a href=\"cut off &amp; never closed>here</a>\n", ""),
    ]


# Pieces of 64 characters, which split tags, names and references. A line that begins with # isn't a piece, so each # there is in the one before.
PIECE = re.compile(r".{64}#*|.+", re.DOTALL)
ESCAPES = str.maketrans({"\\": "\\\\", "\n": "\\n", "\r": "\\r", "\t": "\\t", "\f": "\\f", "\0": "\\0"})


def case():
    """The case of a page of all parts."""
    parts = front()
    for n in range(1, SECTIONS + 1):
        parts += section(n)
    parts += back()
    page = "".join(written for written, _ in parts)
    html = "".join(wanted for _, wanted in parts)
    pieces = [piece.translate(ESCAPES) for piece in PIECE.findall(page)]
    return "\n".join(["#about", "a long page, made by hand", "#pieces", *pieces, "#html", html, ""])


def main(words):
    if words not in ([], ["--check"]):
        sys.exit(__doc__)
    made = case().encode()
    if os.path.isfile(FILE):
        with open(FILE, "rb") as file:
            if file.read() == made:
                return 0
    if words:
        print(f"{FILE} isn't what write_page.py writes", file=sys.stderr)
        return 1
    with open(FILE, "wb") as file:
        file.write(made)
    return 0


sys.exit(main(sys.argv[1:]))
