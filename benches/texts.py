#!/usr/bin/env python3
"""Writes a text of a kind and a size: texts.py KIND SIZE. Without arguments the names of all kinds are printed.

For most kinds the size is about the number of bytes. For those in COUNTED, and for attributes, it is the number of parts.
"""
import sys

# Each element of a part is closed, so no part is inside another.
FLAT = """<h2 id="part">Lorem &amp; ipsum</h2>
<p class="first">Lorem ipsum dolor sit amet, <a href='/find?q=1&amp;p=2'>consectetur</a> adipiscing elit, sed do \
<b>eiusmod</b> tempor incididunt ut labore et dolore magna aliqua. Ut enim ad minim veniam, quis nostrud \
exercitation ullamco laboris nisi ut aliquip ex ea commodo consequat.</p>
<p>Duis aute irure dolor in &quot;reprehenderit&quot; in voluptate velit esse cillum dolore eu fugiat nulla \
pariatur: 3 &lt; 4, 4 &gt; 3, and 10&nbsp;km. Excepteur sint occaecat cupidatat non proident, sunt in culpa qui \
officia deserunt mollit anim id est laborum.</p>
<!-- a note -->
<ul class="items">
  <li>Sed ut perspiciatis unde omnis</li>
  <li>iste natus error sit <i>voluptatem</i></li>
</ul>
<table border=1>
  <tbody>
    <tr><td class="name">accusantium</td><td>17</td></tr>
    <tr><td class="name">doloremque</td><td>4</td></tr>
  </tbody>
</table>
"""
BLOCK = """<div class="row" id=r7>
  <p>Lorem ipsum dolor sit amet, <a href='/find?q=1&amp;p=2'>consectetur</a> adipiscing elit &mdash; sed do \
<b>eiusmod</b> &lt;tempor&gt;.</p>
  <!-- a note -->
  <img src="x.png" alt="an image"/>
</div>
"""
ATTRIBUTED = """<div class="row first" id="r7" title='of no use' data-at=3 hidden><a href="/find?q=1" \
class="link" rel="next" lang="la" tabindex="2">amet</a></div>
"""
SENTENCE = """Lorem ipsum dolor sit amet, consectetur adipiscing elit, sed do eiusmod tempor incididunt ut labore et \
dolore magna aliqua.
"""
DOCTYPE = "<!DOCTYPE html>"
# What comes first, the part that fills the text, and what comes last.
FILLED = {
    "flat": (DOCTYPE + "\n<html><head></head><body>\n", FLAT, "</body></html>\n"),
    "page": (DOCTYPE + "\n", BLOCK, ""),
    "attributed": (DOCTYPE + "\n", ATTRIBUTED, ""),
    "text": (DOCTYPE + "\n<p>", SENTENCE, ""),
    "comment": ("<!--", "x", "-->"),
    "value": ('<a b="', "x", '">'),
    "raw": ("<script>", "if (a < b) c();\n", "</script>"),
    "doctype": ("<!DOCTYPE ", "x", ">"),
    "ampersands": ("", "&", ""),
    "scripts": ("", "<script></script>", ""),
    "number": ("&#", "1", ";"),
    "letters": ("&", "a", ";"),
    "misnested": (DOCTYPE, "<b>1<i>2<p>3</b>4</i>5</p>", ""),
    "crossed": (DOCTYPE, "<b>1<i>2</b>3</i>4", ""),
    "rows": (DOCTYPE + "<table>", "<tr><td>x", "</table>"),
    "fostered": (DOCTYPE + "<table>", "<i>x</i>", "</table>"),
}
# What comes first, and two parts, each repeated.
COUNTED = {
    "nest": (DOCTYPE, "<div>", "</div>"),
    "paragraphs": (DOCTYPE, "<div><p>x", "</div>"),
    "bolds": (DOCTYPE, "<b>", ""),
    "tables": (DOCTYPE, "<table><td>", ""),
    "templates": (DOCTYPE, "<template>", ""),
    "body-ends": ("", "<b>", "</body>"),
    "broken-body-ends": ("", "<x-x>", "</body>z"),
    "strangers": ("", "<x-x>", "</y-y>"),
}
KINDS = [*FILLED, *COUNTED, "name", "attributes"]


def text_of(kind, size):
    """A text of this kind and size."""
    if kind in FILLED:
        first, part, last = FILLED[kind]
        return first + part * (size // len(part)) + last
    if kind in COUNTED:
        first, part, other = COUNTED[kind]
        return first + part * size + other * size
    if kind == "name":
        name = "a" * (size // 2)
        return f"<{name}></{name}>"
    return "<a" + "".join(f" a{number}=1" for number in range(size)) + ">"


def main(words):
    if not words:
        print("\n".join(KINDS))
    elif len(words) == 2 and words[0] in KINDS and words[1].isdecimal():
        sys.stdout.write(text_of(words[0], int(words[1])))
    else:
        sys.exit("usage: texts.py KIND SIZE, with a kind that texts.py lists")


if __name__ == "__main__":
    main(sys.argv[1:])
