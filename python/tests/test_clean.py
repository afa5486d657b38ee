"""Cleaning by the caller's policy: by options with nh3's names, and by the text of a policy file."""
from __future__ import annotations

import os
from typing import Any, Dict, Type, Union

import pytest

import hengaruto
from hengaruto import ALLOWED_ATTRIBUTES, ALLOWED_CLASSES, ALLOWED_TAGS, ALLOWED_URL_SCHEMES, PolicyError, clean

EXAMPLES = os.path.join(os.path.dirname(os.path.dirname(os.path.dirname(os.path.abspath(__file__)))), "examples", "policies")


@pytest.mark.parametrize(
    "html, options, cleaned",
    [
        ("<p>a <b>c</b><i>d</i>", {"tags": {"b"}}, "a <b>c</b>d"),
        ("<p>a <b>c</b><i>d</i>", {"tags": []}, "a cd"),
        ("<p>a<script>b</script><style>c</style>", {"tags": {"p"}}, "<p>a</p>"),
        ("<p>a<i>b</i><script>c</script>", {"tags": {"p"}, "clean_content_tags": {"i"}}, "<p>ac</p>"),
        ("<p>a<i>b</i>", {"tags": {"p"}, "clean_content_tags": set()}, "<p>ab</p>"),
        ("<p title=x dir=ltr>a", {"attributes": {"p": {"title"}}}, '<p title="x">a</p>'),
        ("<p title=x>a<b title=y>c</b>", {"attributes": {"b": {"title"}}}, '<p>a<b title="y">c</b></p>'),
        ("<p title=x>a<b title=y>c</b>", {"attributes": {"*": {"title"}}}, '<p title="x">a<b title="y">c</b></p>'),
        ("<p title=x>a", {"attributes": {}}, "<p>a</p>"),
        # An element that isn't allowed may have attributes, as in nh3.
        ("<p title=x>a", {"tags": {"p"}, "attributes": {"p": {"title"}, "video": {"src"}}}, '<p title="x">a</p>'),
        ("<p title=x>a", {"tags": {"p"}}, '<p title="x">a</p>'),
        ("<p data-x=1 data-y=2 aria-label=z>a", {"generic_attribute_prefixes": {"data-"}}, '<p data-x="1" data-y="2">a</p>'),
        ("<p data-x=1 data-y=2 aria-label=z>a", {"generic_attribute_prefixes": {"data-x", "aria-"}}, '<p data-x="1" aria-label="z">a</p>'),
        ("<a href=http:x>a</a> <a href=tel:1>b</a>", {"url_schemes": {"tel"}, "link_rel": None}, '<a>a</a> <a href="tel:1">b</a>'),
        ("<a href=http:x>a</a> <a href=y>b</a>", {"url_schemes": set(), "link_rel": None}, '<a>a</a> <a href="y">b</a>'),
        ("<a href=y>a", {}, '<a href="y" rel="noopener noreferrer">a</a>'),
        ("<a href=y>a", {"link_rel": "nofollow"}, '<a href="y" rel="nofollow">a</a>'),
        ("<a href=y rel=x>a", {"link_rel": None}, '<a href="y">a</a>'),
        ("<a href=y>a", {"link_rel": 'a "b" \\ \n\x7f'}, '<a href="y" rel="a &quot;b&quot; \\ \n\x7f">a</a>'),
        ("<code class='language-c x'>a", {"tags": {"code"}}, '<code class="language-c">a</code>'),
        ("<p class='note-1 x note'>a<b class=note>c</b>", {"allowed_classes": {"p": {"note*"}}}, '<p class="note-1 note">a<b>c</b></p>'),
        (
            "<p class=x>a<b class=note>c</b>",
            {"allowed_classes": {"p": {"n*", "x*"}, "b": {"x*", "n*"}}},
            '<p class="x">a<b class="note">c</b></p>',
        ),
        ("<p class=x>a<b class=note>c</b>", {"allowed_classes": {"*": {"n*"}}}, '<p>a<b class="note">c</b></p>'),
        ("<p class=x>a", {"allowed_classes": {"p": set()}}, "<p>a</p>"),
        ("<p class='x y'>a", {"attributes": {"p": {"class"}}}, '<p class="x y">a</p>'),
        ("<p id=x>a", {"attributes": {"p": {"id"}}, "id_prefix": "u-"}, '<p id="u-x">a</p>'),
        ("<a href=y>a <a href=#z>b", {"relative_urls": False, "link_rel": None}, '<a>a </a><a href="#z">b</a>'),
        ("<p data-from=http:x data-to=http:x>a",
         {"generic_attribute_prefixes": {"data-"}, "url_attributes": {"data-from"}, "url_schemes": set()}, '<p data-to="http:x">a</p>'),
        ("<p>a", {"place": "line"}, "a"),
        ("<div><div><div>a", {"depth": 2}, "<div><div>a</div></div>"),
        ("<p>a<!--b-->", {"strip_comments": True, "tags": {"p"}}, "<p>a</p>"),
    ],
)
def test_options(html: str, options: Dict[str, Any], cleaned: str) -> None:
    once = clean(html, **options)
    assert once == cleaned and clean(once, **options) == once


@pytest.mark.parametrize(
    "options, kind, message",
    [
        ({"tags": {"script"}}, PolicyError, 'element "script" can\'t be allowed'),
        ({"tags": {"P"}}, PolicyError, '"P" must be in lower case'),
        ({"tags": {'a"\\\n'}}, PolicyError, "can't be allowed"),
        ({"tags": {"\ud800"}}, PolicyError, "can't be allowed"),
        ({"tags": {""}}, PolicyError, "empty name"),
        ({"tags": {"b"}, "clean_content_tags": {"b"}}, PolicyError, "both allowed and dropped"),
        ({"attributes": {"p": {"onclick"}}}, PolicyError, 'attribute "onclick" can\'t be allowed'),
        ({"attributes": {"p": {"id"}}}, PolicyError, "with a prefix only"),
        ({"generic_attribute_prefixes": {"on"}}, PolicyError, "expected data-"),
        ({"url_schemes": {"javascript"}}, PolicyError, 'scheme "javascript" can\'t be allowed'),
        ({"place": "head"}, PolicyError, "`place` must be"),
        ({"depth": 449}, PolicyError, "`depth` must be"),
        ({"depth": -1}, PolicyError, "`depth` must be"),
        ({"depth": 1 << 70}, PolicyError, "out of range"),
        ({"id_prefix": ""}, PolicyError, "`prefix` must be"),
        ({"allowed_classes": {"p": {"*"}}}, PolicyError, "`classes` must be"),
        ({"allowed_classes": {"p": {"x"}}}, ValueError, "allows classes by their prefixes, such as 'x*'"),
        ({"allowed_classes": {"p": {"x*"}, "b": {"y*"}}}, ValueError, "the same for all elements"),
        ({"allowed_classes": {"p": {"x*"}}, "attributes": {"b": {"class"}}}, ValueError, "class is in attributes"),
        ({"strip_comments": False}, ValueError, "no policy can allow comments"),
        ({"attribute_filter": lambda tag, name, value: value}, TypeError, "attribute_filter is not supported: "),
        ({"tag_attribute_values": {}}, TypeError, "tag_attribute_values is not supported: "),
        ({"set_tag_attribute_values": {}}, TypeError, "set_tag_attribute_values is not supported: "),
        ({"filter_style_properties": set()}, TypeError, "filter_style_properties is not supported: "),
        ({"tags": "b"}, TypeError, "tags must be a set of str, not str"),
        ({"tags": 5}, TypeError, "tags must be a set of str, not int"),
        ({"tags": {5}}, TypeError, "a name in tags must be str, not int"),
        ({"attributes": {"title"}}, TypeError, "attributes must be a dict of sets of str, not set"),
        ({"attributes": {"p": "title"}}, TypeError, "must be a set of str, not str"),
        ({"attributes": {5: {"title"}}}, TypeError, "an element in attributes must be str, not int"),
        ({"allowed_classes": ["x*"]}, TypeError, "allowed_classes must be a dict"),
        ({"link_rel": 5}, TypeError, "link_rel must be str, not int"),
        ({"depth": "2"}, TypeError, "integer"),
        ({"policy": "elements = []", "tags": {"b"}}, TypeError, "not both"),
        ({"policy": 5}, TypeError, "a policy must be str or bytes, not int"),
        ({"colour": 1}, TypeError, "colour"),
    ],
)
def test_wrong_options(options: Dict[str, Any], kind: Type[Exception], message: str) -> None:
    with pytest.raises(kind) as caught:
        clean("<p>a", **options)
    assert message in str(caught.value) and not str(caught.value).startswith("line ")
    assert isinstance(caught.value, (TypeError, ValueError)) and isinstance(caught.value, hengaruto.Error) == (kind is PolicyError)


@pytest.mark.parametrize(
    "policy, message",
    [
        ("", "missing key `elements`"),
        ("elements = [\n'b', 'script']", "line 2: element \"script\" can't be allowed"),
        ("elements = [", "line 1: "),
        ("elements = []\ncolour = 1", "line 2: unknown key `colour`"),
        (b"elements = ['\xff']", "line 1: "),
    ],
)
def test_wrong_policies(policy: Union[str, bytes], message: str) -> None:
    with pytest.raises(PolicyError) as caught:
        clean("<p>a", policy=policy)
    assert str(caught.value).startswith(message)


def test_policies() -> None:
    assert clean("<p title=x>a<b>c", policy="elements = ['p']") == clean("<p title=x>a<b>c", policy=b"elements = ['p']") == "<p>ac</p>"
    policy = "elements = ['p']\nattributes = ['class']\nclasses = ['\u00e9']"
    assert clean("<p class='\u00e9 x'>a", policy=policy) == '<p class="\u00e9">a</p>'


@pytest.mark.parametrize("html", ["<p onclick=x>a<script>b", "", "<code class='language-c x'>", b"<img src=mailto:x>\xff", "<p>\ud800"])
def test_without_options_it_is_the_default_policy(html: Union[str, bytes]) -> None:
    plain = clean(html)
    assert clean(html, strip_comments=True, link_rel="noopener noreferrer", relative_urls=True, tags=None, policy=None) == plain


def test_the_defaults_are_the_policy_text() -> None:
    tomllib = pytest.importorskip("tomllib")
    if not os.path.isdir(EXAMPLES):
        pytest.skip("the package alone has no examples")
    with open(os.path.join(EXAMPLES, "text.toml"), "rb") as file:
        policy = tomllib.load(file)
    of_elements = {tag: frozenset(names) for tag, names in policy["attributes-of"].items()}
    assert of_elements.pop("code") == {"class"} and ALLOWED_CLASSES == {"code": frozenset(name + "*" for name in policy["classes"])}
    assert {"*": frozenset(policy["attributes"]), **of_elements} == ALLOWED_ATTRIBUTES
    assert set(policy["elements"]) == ALLOWED_TAGS and set(policy["schemes"]) == ALLOWED_URL_SCHEMES


@pytest.mark.parametrize(
    "options",
    [
        {"tags": {"b"}},
        {"tags": {"p", "a"}, "attributes": {"a": {"href"}, "*": {"title"}}},
        {"tags": {"p"}, "clean_content_tags": {"b"}},
        {"tags": {"a", "p"}, "url_schemes": {"https"}},
        {"tags": {"a", "p"}, "link_rel": None},
        {"tags": {"p"}, "attributes": {}, "generic_attribute_prefixes": {"data-"}},
    ],
)
def test_options_beside_nh3(options: Dict[str, Any]) -> None:
    nh3 = pytest.importorskip("nh3")
    paragraphs = ["<p title=x data-y=1>a<b>c</b></p>", '<p><a href="http://x.org/">y</a></p>']
    for html in (*paragraphs, '<a href="https://x.org/" title="t">y</a>', "a &amp; b"):
        assert clean(html, **options) == nh3.clean(html, **options)
