"""The kinds of columns by name. A kind is imported when it is used, since most tables have few."""
from __future__ import annotations

import importlib
from typing import TYPE_CHECKING, Any, Callable

from .base import Kind, Listed, Settings, Styled

if TYPE_CHECKING:
    from .base import Nulls, Whole
    from .dictionary import Texts
    from .numbers import Decimals, Floats, Ranked, Truths
    from .temporal import Clocks, Dates, Times

__all__ = ["Clocks", "Dates", "Decimals", "Floats", "Nulls", "Ranked",
           "Styled", "Texts", "Times", "Truths", "Whole", "kind_of",
           "unstyled"]

NUMBERS = ("whole", "decimals", "floats", "ranked")
# the module of each kind, whose class has the kind's name
MODULES = {"whole": "base", "nulls": "base", "decimals": "numbers", "floats": "numbers",
           "ranked": "numbers", "truths": "numbers", "dates": "temporal", "times": "temporal",
           "clocks": "temporal", "texts": "dictionary"}
STYLE = ("mark", "grouping", "prefix", "suffix", "brackets")


def __getattr__(name: str) -> Any:
    if name.lower() not in MODULES or not name.istitle():
        raise AttributeError(f"module {__name__!r} has no attribute {name!r}")
    return getattr(importlib.import_module(f".{MODULES[name.lower()]}", __package__), name)


def unstyled(kind: Kind) -> Kind:
    """Returns the kind without the style in which its numbers are printed."""
    return kind.inner if isinstance(kind, Styled) else kind


def kind_of(name: str, settings: Settings, listed: Listed | None) -> Kind:
    """Returns the kind of a name, with these settings, and with the list that its numbers are
    places in. Raises ValueError, TypeError or KeyError if a setting is missing, is surplus, or
    isn't as one may be."""
    if name not in MODULES:
        raise KeyError(name)
    make: Callable[..., Any] = __getattr__(name.title())
    own = {each: value for each,
           value in settings.items() if each not in STYLE or name not in NUMBERS}
    if settings:
        refuse_odd(settings)
    made: Kind = make(**own) if listed is None else make(listed, **own)
    if "mark" in settings and name in NUMBERS:
        made = styled(made, settings)
    if made.settings() != settings or (made.listed is None) != (listed is None):
        raise ValueError
    return made


def styled(kind: Any, settings: Settings) -> Styled:
    """Returns a kind of numbers in the style of these settings."""
    from .number_format import Style
    style = {each: settings[each] for each in STYLE}
    return Styled(kind, Style(**style))  # type: ignore[arg-type]


def checks() -> dict[str, Callable[[object], bool]]:
    """Returns whether a setting is one that kinds may have, for each setting."""
    from .number_format import BETWEEN, LAKHS
    from .temporal import is_format
    return {
        "digits": lambda value: isinstance(value, int) and 0 <= value <= 18,
        "trimmed": lambda value: value in (0, 1),
        "gap": lambda value: isinstance(value, int) and 0 <= value < 1 << 63, "form": is_format,
        "zone": lambda value: value in ("", "Z"), "false": lambda value: isinstance(value, str),
        "true": lambda value: isinstance(value, str), "mark": lambda value: value in (".", ","),
        "grouping": lambda value: value in ("", LAKHS, *".,", *BETWEEN),
        "prefix": is_short, "suffix": is_short, "brackets": lambda value: value in (0, 1)}


def is_short(value: object) -> bool:
    return isinstance(value, str) and len(value) <= 8


def refuse_odd(settings: Settings) -> None:
    """Raises ValueError if a setting isn't one that a kind may have."""
    known = checks()
    if not all(each in known and known[each](value) for each, value in settings.items()):
        raise ValueError
