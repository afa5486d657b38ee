"""What a form sends (HTML standard, section 4.10.21.4, "Constructing the entry list")."""
from __future__ import annotations

from typing import TYPE_CHECKING, Iterator, List, Optional, Tuple

if TYPE_CHECKING:
    from ._tree import Node

_BUTTONS = ("submit", "button", "reset", "image")


def fields_of(form: Node) -> List[Tuple[str, str]]:
    """The names and values of the controls that are sent if no button is pressed, in tree order."""
    sent: List[Tuple[str, str]] = []
    for control in _controls(form):
        name = control.get("name")
        if name and not _is_disabled(control) and not any(above.name == "datalist" for above in control.ancestors()):
            sent += [(name, value) for value in _values(control)]
    return sent


def _controls(form: Node) -> Iterator[Node]:
    """The controls of a form: those in it, and those elsewhere that name it."""
    own = form.get("id")
    for control in form.document.iter():
        if control.name not in ("input", "select", "textarea"):
            continue
        named = control.get("form")
        if named is None:
            if next((above for above in control.ancestors() if above.name == "form"), None) == form:
                yield control
        elif named and named == own:
            yield control


def _is_disabled(control: Node) -> bool:
    """Returns true if a control, or a `fieldset` around it, is disabled. Controls in the first `legend` of that are not."""
    if "disabled" in control:
        return True
    inside = control
    for above in control.ancestors():
        if above.name == "fieldset" and "disabled" in above:
            legend = next((child for child in above.elements if child.name == "legend"), None)
            if legend is None or inside != legend:
                return True
        inside = above
    return False


def _values(control: Node) -> List[str]:
    if control.name == "select":
        return _chosen(control)
    if control.name == "textarea":
        return [control.text()]
    kind = (control.get("type") or "text").lower()
    if kind in _BUTTONS or kind == "file":
        return []
    if kind in ("checkbox", "radio"):
        return [control.get("value", "on")] if "checked" in control else []
    return [control.get("value", "")]


def _chosen(select: Node) -> List[str]:
    """The values of the options that are chosen; of a list with one line, the first one if none is."""
    options = [option for option in select.iter("option") if not _is_option_disabled(option, select)]
    chosen = [option for option in select.iter("option") if "selected" in option]
    if "multiple" not in select:
        shows_one = (select.get("size") or "1").strip() in ("", "0", "1")
        chosen = chosen[-1:] or (options[:1] if shows_one else [])
    return [_option_value(option) for option in chosen if option in options]


def _is_option_disabled(option: Node, select: Node) -> bool:
    group: Optional[Node] = option.parent
    return "disabled" in option or (group is not None and group != select and group.name == "optgroup" and "disabled" in group)


def _option_value(option: Node) -> str:
    value = option.get("value")
    return " ".join(option.text().split()) if value is None else value
