"""Random inputs for .ci/fuzz: pages, selectors, labels, policies, records, calls of Python and command lines. Most are almost right."""
import json

import soups
import token_lists

TAGS = sorted({name for topic in token_lists.TOPICS for name in topic})
SOUPS = [
    *soups.parts(), "<table>", "</table>", "<tr>", "<td colspan=1000 rowspan=65534>", "<td rowspan=0>x", "<th colspan=-1>", "<caption>", "<form>",
    "<input name=a type=radio checked value=b>", "<input type=image name=c disabled>", "<select name=d multiple>", "<option selected>e",
    "<textarea name=f>\n", "<button name=g>", "<fieldset disabled>", "<base href=//[>", "<a href=http://[::1>", "<a href='  ..?x#y'>", "<a href>",
]
ODD_NUMBERS = ["0", "1", "7", "40", "-1", "+5", "1.5", "", "x", "00", "4294967295", "4294967296", "18446744073709551616", "9" * 40]
SELECTOR_PARTS = (
    "p b div td * a[href] [id] .a #b :not( :is( :where( :has( :nth-child( :nth-last-of-type( 2n+1 odd of ) ] , > + ~ :root :empty :scope :checked"
    " :disabled :enabled :lang(en) :lang( :first-child ::before :hover *| svg| |"
    " [a=\"b\" i] [a^='b'] [a~=b] [ \\ \\41 \" ' /* */ /**/ ( { é \x00 \n 99999999999n"
).split(" ")
LABELS = (
    "utf-8 UTF-8 latin1 gbk gb18030 big5 euc-jp euc-kr shift_jis iso-2022-jp utf-16le utf-16be koi8-r x-user-defined replacement hz-gb-2312"
    " windows-1252 iso-8859-8-i macintosh nosuch \x00 é"
).split(" ")
CONTEXTS = [*token_lists.CONTEXTS, "svg svg", "svg title", "math mi", "math annotation-xml", "html svg", "x y z", "", " ", "é", "x-y", "\x00"]
URLS = ["https://e.example/x/y?z#f", "http://[::1]:80/", "mailto:a@b", "x", "", "//e", "https://e.example:99999/", "data:,x", "file:///a", "é", "javascript:x"]
POLICY_LINES = [
    "elements = []", 'elements = ["p", "a", "b", "ul", "li"]', 'elements = ["script"]', 'elements = ["svg"]', "elements = 1",
    'dropped = ["script"]', 'attributes = ["title", "data-*"]', 'attributes = ["onclick"]', 'classes = ["x-*"]', "[attributes-of]",
    'a = ["href"]', 'attributes-of = { a = ["href"] }', 'schemes = ["https"]', 'schemes = ["https:"]', "relative = false", 'rel = "nofollow"',
    'prefix = "u-"', 'place = "line"', 'place = "x"', "depth = 64", "depth = -1", "depth = 99999999999999999999", "urls = ['x']", "# c", "[",
    "x = {a = [1, 2.5e3, 1979-05-27T07:32:00Z, '''\n''']}", "a.b.c = 1", '"é" = "\\u00e9"', "\x00", "[[t]]",
]
# Values of a wrong type or size, for calls of Python.
ODD_VALUES = [
    "None", "5", "-1", "1.5", "True", "2 ** 70", "[]", "()", "{}", "b'x'", "'x'", "'\\ud800'", "object()", "bytearray(b'<p>')",
    "memoryview(b'<p>')",
]
TREES = ["hengaruto.parse({page}, scripting={flag}, iframe_srcdoc={flag})", "hengaruto.parse_fragment({page}, {context}, scripting={flag})"]
# What is called on a document or on a node of it, and what is called on nothing.
ON_TREES = [
    ".select({selector})", ".select_first({selector})", ".find({name})", ".find_all({name})", ".iter({name})", ".title", ".text()", ".to_html()",
    ".links()", ".root", ".node.inner_html()", ".node.descendants()", "[{number}].children()", "[{number}].ancestors()", "[{number}].attrs",
    "[{number}].get({name})", "[{number}][{name}]", "[{number}].next", "[{number}].parent", "[{number}].data", "[{number}].select({selector})",
    "[{number}].to_html()", "[{number}].public_id", ".find_all({test}, attrs={tests}, limit={number})", ".find({test}, id={test}, string={test})",
    "[{number}].find_all({test}, recursive={flag})", "[{number}].matches({selector})", "[{number}].closest({selector})", "[{number}].string",
    ".strings", ".stripped_strings", ".get_text({name}, strip={flag})", ".comments()", ".absolute_links({url})", ".base({url})",
    "[{number}].previous", "[{number}].next_element", "[{number}].previous_element", "[{number}].elements", "[{number}].namespace",
    ".block", ".quirks", "[{number}].iter({name})", "[{number}].text()",
]
CALLS = [
    "hengaruto.text({page}, width={width})", "hengaruto.links({page})", "hengaruto.errors({page})", "hengaruto.meta({page})",
    "hengaruto.outline({page})", "hengaruto.clean({page})", "hengaruto.decode({bytes}, {label})",
    "hengaruto.parse({bytes}, encoding={label})", "hengaruto.text({bytes}, encoding={label})", "hengaruto.clean({page}, policy={policy})",
    "hengaruto.clean({page}, tags=[{name}, {name}, 'p'], attributes=dict(p=[{name}]), url_schemes=[{name}], id_prefix={name})",
    "hengaruto.load({bytes})", "hengaruto.load(changed({tree}.block, {changes}))", "fed([{page}, {page}])", "pickle.loads(pickle.dumps({tree}))",
    "hengaruto.trees.to_etree({tree}, namespaces={flag})", "[it.rows() for it in {tree}.iter('table')]",
    "[it.fields() for it in {tree}.iter('form')]", "{name} in {tree}.node", "{tree} == {tree}", "hash({tree}.node)", "len({tree})",
]


def page(rand):
    """A page in bytes: a soup, tags nested deep, or bytes that were changed."""
    kind = rand.random()
    if kind < 0.5:
        text = "".join(rand.choice(SOUPS) for _ in range(rand.randint(0, 30)))
    elif kind < 0.9:
        text = token_lists.random_text(rand, TAGS)[1]
    else:
        text = "".join(f"<{name}>" for name in rand.choices(TAGS, k=rand.randint(1, 3))) * rand.choice([1, 20, 500])
    return changed(rand, text.encode("utf-8", "surrogatepass"))


def changed(rand, given):
    """The bytes, some of them with changes."""
    out = bytearray(given)
    for _ in range(rand.choice([0, 0, 0, 1, 4])):
        at = rand.randrange(len(out) + 1)
        out[at : at + rand.choice([0, 1, 9])] = bytes(rand.randrange(256) for _ in range(rand.choice([0, 1, 1, 3])))
    return bytes(out)


def selector(rand):
    if rand.random() < 0.1:
        opened = rand.choice([":not(", ":is(", ":has(", ":nth-child(1 of ", "[", "("])
        depth = rand.choice([2, 31, 32, 33, 500])
        return opened * depth + "p" + ")" * rand.choice([0, depth])
    if rand.random() < 0.05:
        return "p" + rand.choice([">p", "~p", " p", ",p", ".a", ":first-child"]) * rand.choice([30, 999, 1000])
    return "".join(rand.choice(SELECTOR_PARTS) + rand.choice(["", "", " "]) for _ in range(rand.randint(0, 7)))


def policy(rand):
    if rand.random() < 0.05:
        return "elements = []\na = " + rand.choice(["[", "{a = ", "[{a = ", "a."]) * rand.choice([3, 127, 128, 255, 256, 257, 9000])
    return "\n".join(rand.choice(POLICY_LINES) for _ in range(rand.randint(0, 6)))


def record(rand):
    """A line of JSON, or something like it."""
    html = page(rand).decode("utf-8", "replace")
    known = {"html": html, "id": rand.choice([1, 1.5, "x", None, [{}], {"html": 2}, 10**40]), "path": rand.choice(["examples/page.html", "/dev/zero", 1])}
    line = json.dumps({name: known[name] for name in rand.sample(sorted(known), rand.randint(0, 3))}, ensure_ascii=rand.random() < 0.5)
    if rand.random() < 0.1:
        line = "".join([rand.choice('[{"a":') * rand.choice([3, 127, 128, 129, 9000]), line])
    return changed(rand, line.encode()) + rand.choice([b"\n", b"\n", b"\r\n", b"\n\n", b""])


def c_case(rand):
    """A case of c/tests/fuzz.c: a letter, options, an argument and a page."""
    letter = rand.choice("pfsmbedtcoy")
    argument = {
        "f": lambda: rand.choice(CONTEXTS).rpartition(" ")[2].encode(),
        "s": lambda: changed(rand, selector(rand).encode()),
        "b": lambda: selector(rand).encode(),
        "m": lambda: bytes(rand.randrange(256) if it % 3 != 1 else rand.choice([0, 0, 0, 1, 2]) for it in range(3 * rand.randint(0, 9))),
        "e": lambda: rand.choice(LABELS).encode(),
        "d": lambda: rand.choice(LABELS).encode(),
        "y": lambda: rand.choice([*LABELS, ""]).encode(),
        "o": lambda: changed(rand, policy(rand).encode()),
    }.get(letter, bytes)()
    return letter, rand.randrange(256), argument[:65535], block(rand) if letter == "b" else page(rand)


def block(rand):
    """Bytes that begin as a block, with small numbers in the place of its words."""
    count = rand.randint(9, 60)
    words = [rand.choice([0, 0, 1, 2, 3, 256, rand.randrange(1 << 32)]) for _ in range(count)]
    words[0], words[1] = 0x31544748, 4 * count
    given = b"".join(it.to_bytes(4, "little") for it in words)
    return given if rand.random() < 0.7 else changed(rand, given)


def python_value(rand, kind):
    makers = {
        "page": lambda: rand.choice([repr(page(rand)), repr(page(rand).decode("utf-8", "replace")), f"bytearray({page(rand)!r})"]),
        "bytes": lambda: repr(page(rand) if rand.random() < 0.5 else block(rand)),
        "context": lambda: repr(rand.choice(CONTEXTS)),
        "selector": lambda: repr(selector(rand)),
        "name": lambda: repr(rand.choice([*TAGS, "", "é", "\x00", "id", "class"])),
        "label": lambda: repr(rand.choice([*LABELS, None])),
        "policy": lambda: repr(policy(rand)),
        "test": lambda: rand.choice([python_value(rand, "name"), "None", "True", "False", "re.compile('a')", "['p', None, re.compile('b')]", "bool"]),
        "tests": lambda: rand.choice(["None", "'a'", f"{{'class': {python_value(rand, 'test')}}}", "{}"]),
        "url": lambda: repr(rand.choice(URLS)),
        "number": lambda: str(rand.randint(-2, 30)),
        "width": lambda: str(rand.choice([None, 1, 2, 40, 0, -1])),
        "flag": lambda: str(rand.random() < 0.5),
        "changes": lambda: repr([(rand.randrange(400), rand.randrange(256)) for _ in range(rand.randint(0, 5))]),
        "tree": lambda: python_expression(rand, [rand.choice(TREES)], 0)[0],
    }
    return makers[kind]()


def python_expression(rand, templates, odd):
    """An expression, and true if one of its values has a wrong type or size; `odd` is the chance of that."""
    text, is_odd = rand.choice(templates), False
    while "{" in text:
        before, _, after = text.partition("{")
        kind, _, after = after.partition("}")
        is_value_odd = kind != "tree" and kind != "changes" and rand.random() < odd
        value = rand.choice(ODD_VALUES) if is_value_odd else python_value(rand, kind)
        is_odd, text = is_odd or is_value_odd, before + value.replace("{", "\0open") + after
    return text.replace("\0open", "{"), is_odd


def python_call(rand):
    templates = CALLS if rand.random() < 0.4 else [rand.choice(TREES) + rand.choice(ON_TREES)]
    return python_expression(rand, templates, 0.05)
