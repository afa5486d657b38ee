"""Cleans untrusted fragments, by the default policy or by another one."""
from __future__ import annotations

import operator
import re
from typing import Dict, FrozenSet, Iterable, List, Mapping, NamedTuple, Optional, Union

from ._input import Source, as_text, utf8
from ._library import PolicyError, given

ALLOWED_TAGS: FrozenSet[str] = frozenset(
    "a abbr address article aside b bdi bdo blockquote br caption cite code col colgroup data dd del details dfn div dl dt em "
    "figcaption figure footer h1 h2 h3 h4 h5 h6 header hgroup hr i img ins kbd li main mark nav ol p pre q rp rt ruby s samp section "
    "small span strike strong sub summary sup table tbody td tfoot th thead time tr tt u ul var wbr".split()
)
"""The elements that are allowed if no `tags` are given."""

ALLOWED_ATTRIBUTES: Mapping[str, FrozenSet[str]] = {
    "*": frozenset({"title", "lang", "dir"}),
    "a": frozenset({"href"}),
    "blockquote": frozenset({"cite"}),
    "col": frozenset({"span"}),
    "colgroup": frozenset({"span"}),
    "data": frozenset({"value"}),
    "del": frozenset({"cite", "datetime"}),
    "details": frozenset({"open"}),
    "div": frozenset({"align"}),
    **{f"h{level}": frozenset({"align"}) for level in range(1, 7)},
    "img": frozenset({"src", "alt", "width", "height", "align"}),
    "ins": frozenset({"cite", "datetime"}),
    "li": frozenset({"value"}),
    "ol": frozenset({"start", "reversed", "type"}),
    "p": frozenset({"align"}),
    "q": frozenset({"cite"}),
    "td": frozenset({"colspan", "rowspan", "headers", "align"}),
    "th": frozenset({"colspan", "rowspan", "headers", "scope", "align"}),
    "time": frozenset({"datetime"}),
}
"""The attributes that are allowed if no `attributes` are given: those of each element, and under `*` those of all."""

ALLOWED_CLASSES: Mapping[str, FrozenSet[str]] = {"code": frozenset({"language-*"})}
"""The classes that are allowed if neither `attributes` nor `allowed_classes` are given."""

ALLOWED_URL_SCHEMES: FrozenSet[str] = frozenset({"http", "https", "mailto"})
"""The schemes of URLs that are allowed if no `url_schemes` are given."""

LINK_REL = "noopener noreferrer"

_Names = Optional[Iterable[str]]
_NamesByTag = Optional[Mapping[str, Iterable[str]]]


class _Options(NamedTuple):
    """The options of `clean` that make a policy, with their defaults."""

    tags: _Names = None
    clean_content_tags: _Names = None
    attributes: _NamesByTag = None
    attribute_filter: None = None
    strip_comments: bool = True
    link_rel: Optional[str] = LINK_REL
    generic_attribute_prefixes: _Names = None
    tag_attribute_values: None = None
    set_tag_attribute_values: None = None
    url_schemes: _Names = None
    allowed_classes: _NamesByTag = None
    filter_style_properties: None = None
    url_attributes: _Names = None
    relative_urls: bool = True
    id_prefix: Optional[str] = None
    place: Optional[str] = None
    depth: Optional[int] = None


def clean(
    html: Source,
    *,
    tags: _Names = None,
    clean_content_tags: _Names = None,
    attributes: _NamesByTag = None,
    attribute_filter: None = None,
    strip_comments: bool = True,
    link_rel: Optional[str] = LINK_REL,
    generic_attribute_prefixes: _Names = None,
    tag_attribute_values: None = None,
    set_tag_attribute_values: None = None,
    url_schemes: _Names = None,
    allowed_classes: _NamesByTag = None,
    filter_style_properties: None = None,
    url_attributes: _Names = None,
    relative_urls: bool = True,
    id_prefix: Optional[str] = None,
    place: Optional[str] = None,
    depth: Optional[int] = None,
    policy: Union[str, bytes, None] = None,
) -> str:
    """Returns the HTML that a policy allows of an untrusted fragment.

    Without options this is the default policy: phrases, ruby annotations, links, images, headings, blocks, lists and tables. Scripts,
    styles, forms and frames are removed. URLs are relative, http or https, and in links also mailto. Put the result into a page in UTF-8,
    where block elements are allowed, and not into a script, a style, an attribute or a comment. Two things are proved about the library's
    result, for any policy: parsed as a fragment in an element such as `div`, it is exactly the tree that was allowed; and cleaning it again
    doesn't change it.

    The options up to `filter_style_properties` are those of nh3:

    - `tags`: the allowed elements. Default: `ALLOWED_TAGS`.
    - `clean_content_tags`: elements that are removed with their content. Default: those of the default policy, such as `script`.
    - `attributes`: the allowed attributes of each element, and under `*` those of all. Those of an element that isn't allowed are ignored.
      Default: `ALLOWED_ATTRIBUTES`.
    - `generic_attribute_prefixes`: prefixes of more attributes that are allowed for all elements: `data-`, `aria-`, or such as `data-x-`.
    - `allowed_classes`: the allowed classes of each element, by prefixes that end in `*`. They must be the same for all elements. Default:
      `ALLOWED_CLASSES`. If `attributes` are given, `class` is one of them instead.
    - `url_schemes`: the allowed schemes of URLs. Default: `ALLOWED_URL_SCHEMES`.
    - `link_rel`: the `rel` of each link, or None for no `rel`.
    - `strip_comments` must be True. `attribute_filter`, `tag_attribute_values`, `set_tag_attribute_values` and `filter_style_properties`
      are not supported.

    The others are keys of the program's policy files: `url_attributes` (`urls`), `relative_urls` (`relative`), `id_prefix` (`prefix`),
    `place` and `depth`. `policy` is the text of such a file, and excludes all other options.

    An invalid policy raises a `PolicyError`, which is a `ValueError`. An option that no policy can express raises a `TypeError` or a
    `ValueError`.

    >>> clean('<p onclick="alert(1)">A <b>nice</b> page<script>alert(2)</script>')
    '<p>A <b>nice</b> page</p>'
    >>> clean("<h1 title=x>A <b title=y>nice</b> page</h1>", tags={"b"}, attributes={"b": {"title"}})
    'A <b title="y">nice</b> page'
    >>> clean("<p>A <b>nice</b> page", policy='elements = ["p"]')
    '<p>A nice page</p>'
    """
    options = _Options(
        tags, clean_content_tags, attributes, attribute_filter, strip_comments, link_rel, generic_attribute_prefixes,
        tag_attribute_values, set_tag_attribute_values, url_schemes, allowed_classes, filter_style_properties, url_attributes,
        relative_urls, id_prefix, place, depth,
    )
    html = utf8(html)
    if policy is not None:
        if options != _Options():
            raise TypeError("clean takes a policy or other options, not both")
        return _cleaned_by(html, policy)
    if options == _Options():
        return str(given("clean", html, len(html)), "utf-8", "replace")
    try:
        return _cleaned_by(html, _policy(options))
    except PolicyError as error:
        # The line is one of a text that the caller doesn't see.
        raise PolicyError(_LINE.sub("", str(error))) from None


def _cleaned_by(html: bytes, policy: Union[str, bytes]) -> str:
    if not isinstance(policy, (str, bytes)):
        raise TypeError(f"a policy must be str or bytes, not {type(policy).__name__}")
    text = utf8(policy)
    return str(given("clean_by", html, len(html), text, len(text)), "utf-8", "replace")


_UNSUPPORTED = {
    "attribute_filter": "a policy has no functions",
    "tag_attribute_values": "a policy can't list the values of an attribute",
    "set_tag_attribute_values": "a policy sets no attribute but the rel of links, which link_rel is",
    "filter_style_properties": "no policy can allow style",
}
_ESCAPED = re.compile(r'["\\\x00-\x1f\x7f]')
_LINE = re.compile(r"^line \d+: ")


def _policy(options: _Options) -> str:
    """Returns the text of the policy that has these options."""
    for name, reason in _UNSUPPORTED.items():
        if getattr(options, name) is not None:
            raise TypeError(f"{name} is not supported: {reason}")
    if options.strip_comments is not True:
        raise ValueError("strip_comments must be True: no policy can allow comments")
    tags = _names(ALLOWED_TAGS if options.tags is None else options.tags, "tags")
    classes = _by_tag(_classes(options), "allowed_classes")
    attributes = _attributes(options, classes)
    lines = [f"elements = {_array(tags)}"]
    if options.clean_content_tags is not None:
        lines.append(f"dropped = {_array(_names(options.clean_content_tags, 'clean_content_tags'))}")
    prefixes = _names(options.generic_attribute_prefixes or (), "generic_attribute_prefixes")
    lines.append(f"attributes = {_array([*attributes.pop('*', []), *(prefix + '*' for prefix in prefixes)])}")
    if classes:
        lines.append(f"classes = {_array(_class_prefixes(classes))}")
    lines += _lines_about_values(options)
    lines.append("[attributes-of]")
    lines += [f"{_string(tag)} = {_array(names)}" for tag, names in attributes.items() if tag in tags]
    return "\n".join(lines)


def _lines_about_values(options: _Options) -> List[str]:
    """Returns the lines of a policy about URLs and about the values of single attributes, and those about the place of the result."""
    lines = [f"schemes = {_array(_names(ALLOWED_URL_SCHEMES if options.url_schemes is None else options.url_schemes, 'url_schemes'))}"]
    if options.url_attributes is not None:
        lines.append(f"urls = {_array(_names(options.url_attributes, 'url_attributes'))}")
    if not options.relative_urls:
        lines.append("relative = false")
    texts = [("rel", "link_rel", options.link_rel), ("prefix", "id_prefix", options.id_prefix), ("place", "place", options.place)]
    for key, option, text in texts:
        if text is not None:
            lines.append(f"{key} = {_string(as_text(text, option))}")
    if options.depth is not None:
        lines.append(f"depth = {operator.index(options.depth)}")
    return lines


def _classes(options: _Options) -> Mapping[str, Iterable[str]]:
    """Returns the classes of each element, as the caller gives them."""
    if options.allowed_classes is not None:
        return options.allowed_classes
    return ALLOWED_CLASSES if options.attributes is None else {}


def _attributes(options: _Options, classes: Dict[str, List[str]]) -> Dict[str, List[str]]:
    """Returns the attributes of each element, with `class` where classes are allowed."""
    attributes = _by_tag(ALLOWED_ATTRIBUTES if options.attributes is None else options.attributes, "attributes")
    if classes and any("class" in names for names in attributes.values()):
        raise ValueError("class is in attributes, which allows all classes, and in allowed_classes")
    for tag in classes:
        attributes[tag] = [*attributes.get(tag, []), "class"]
    return attributes


def _class_prefixes(classes: Dict[str, List[str]]) -> List[str]:
    """Returns the prefixes of the allowed classes, which are the same for all elements."""
    first, *others = classes.values()
    if any(names != first for names in others):
        raise ValueError("allowed_classes must be the same for all elements: a policy has one list of classes")
    for name in first:
        if not name.endswith("*"):
            raise ValueError(f"allowed_classes has {name!r}: a policy allows classes by their prefixes, such as {name + '*'!r}")
    return [name[:-1] for name in first]


def _names(value: Iterable[str], option: str) -> List[str]:
    """Returns the names in an option, each once."""
    if isinstance(value, (str, bytes, bytearray)) or not isinstance(value, Iterable):
        raise TypeError(f"{option} must be a set of str, not {type(value).__name__}")
    return sorted({as_text(name, f"a name in {option}") for name in value})


def _by_tag(value: Mapping[str, Iterable[str]], option: str) -> Dict[str, List[str]]:
    """Returns the names for each element in an option; elements without any are left out."""
    if not isinstance(value, Mapping):
        raise TypeError(f"{option} must be a dict of sets of str, not {type(value).__name__}")
    names = {as_text(tag, f"an element in {option}"): _names(of_tag, f"{option}[{tag!r}]") for tag, of_tag in value.items()}
    return {tag: of_tag for tag, of_tag in sorted(names.items()) if of_tag}


def _array(names: Iterable[str]) -> str:
    return f"[{', '.join(map(_string, names))}]"


def _string(text: str) -> str:
    """Returns a text as a string of TOML."""
    return '"' + _ESCAPED.sub(lambda found: f"\\u{ord(found[0]):04x}", text) + '"'
