"""The detectors: whether the fields of a column are numbers, dates, times or booleans."""
from __future__ import annotations

import decimal
import itertools
import math
import re
from dataclasses import dataclass, field
from typing import Callable, ClassVar, Iterable, Optional, Sequence, Union

from .._csv.dialect import BLANKS
from .._errors import shown
from .._identifiers import option
from .._types.base import GREATEST, LEAST, Kind, Numbers, Styled, Whole
from .._types.number_format import (CODE, LAKHS, PHONE, SIMPLE, STARTS, WHOLE, ZEROS, Style,
                                    is_number, like_number, marks_of, parts_of)
from .._types.numbers import TRUTHS, TRUTH_OF, Decimals, Floats, Truths
from .._types.temporal import (CLOCK_LINES, DATE_LINES, DATE_STARTS, ISO_DATE, MOST_DIGITS, Clocks,
                               DateFormat, Dates, Moment, Times, format_of, moment_of, read_moment)
from .ambiguity import (SHORT, Ambiguity, Decision, Rounding, Outcome, change_in_double, matching,
                        starting)
from .fields import MOST_PLACES, TRIED, Fields, Spans


# How the dates and times of a column are spelled.


@dataclass
class Spellings:
    """How dates and times are spelled: the formats that all dates may have, the first text of each,
    and the first text with each form, with and without a zone, with each format of a time of day,
    and with what is between. The most digits after a point, and the least and the greatest day and
    part."""
    formats: Optional[tuple[str, ...]] = None
    first: str = ""
    forms: dict[str, str] = field(default_factory=dict)
    zones: dict[bool, str] = field(default_factory=dict)
    clocks: dict[str, str] = field(default_factory=dict)
    betweens: dict[str, str] = field(default_factory=dict)
    digits: int = 0
    odd: str = ""

    def add(self, texts: Iterable[str]) -> None:
        for text in texts:
            moment = moment_of(text)
            if moment:
                self.see(text, moment)

    def see(self, text: str, moment: Moment) -> None:
        self.first = self.first or text
        self.forms.setdefault(moment.form, text)
        if moment.days:
            before = tuple(moment.days) if self.formats is None else self.formats
            known = tuple(form for form in before if form in moment.days)
            if not known:
                self.odd = self.odd or text
            self.formats = known or self.formats
        if moment.clock:
            self.clocks.setdefault(moment.clock, text)
            self.zones.setdefault(moment.has_zone, text)
            self.betweens.setdefault(moment.between, text)
        self.digits = max(self.digits, moment.digits)

    def clock(self) -> Union[str, tuple[str, str]]:
        """Returns the format of the time of day, the one with seconds if there are two; or two
        texts of different clocks."""
        found = sorted(self.clocks, key=len)
        halves = {form: "%p" in form for form in found}
        if len(set(halves.values())) > 1:
            first, second = (next(form for form in found if halves[form] is half)
                             for half in (True, False))
            return self.clocks[first], self.clocks[second]
        return found[-1] if found else ""


def spellings(column: Fields) -> Spellings:
    """Returns how a column's dates and times are spelled."""
    found = Spellings()
    for between, has_seconds, digits, zone in column.plain.shapes:
        clock = "%H:%M:%S" if has_seconds else "%H:%M"
        found.see(column.plain.samples.get("any", ""),
                  Moment({ISO_DATE: 0}, 0, digits, between, clock, bool(zone)))
    for texts in column.bare():
        found.add(texts)
    return found


# Times of day: seconds of a day and their parts.


@dataclass(frozen=True)
class ClockDetector:
    """Looks for times of day."""
    plural: ClassVar[str] = "times of day"
    singular: ClassVar[str] = "a time of day"
    forms: ClassVar[tuple[str, ...]] = ()
    is_shared: ClassVar[bool] = True

    def like(self, texts: Sequence[str]) -> list[str]:
        return [text for text in matching(CLOCK_LINES, starting(texts, DATE_STARTS[:1]))
                if (moment := moment_of(text)) and not moment.days]

    def signs(self, column: Fields) -> set[str]:
        return set()

    def decide(self, column: Fields, signs: set[str]) -> Outcome:
        found = spellings(column)
        clock = found.clock()
        if isinstance(clock, tuple):
            return Ambiguity("{0} and {1} are times of different forms", clock,
                             (option("--text", column.options.heading),))
        return Decision(Clocks(clock, found.digits))


# Dates and times: days since 1970, or seconds and their parts since then.

# the format of dates that versions have too, and a text that is hardly one of these
VERSIONS, FULL = "%d.%m.%y", re.compile(r"(?:[0-9]{2}\.){2}[0-9]{2}")


@dataclass(frozen=True)
class DateDetector:
    """Looks for dates and times."""
    plural: ClassVar[str] = "dates"
    singular: ClassVar[str] = "a date"
    forms: ClassVar[tuple[str, ...]] = ("time",)
    is_shared: ClassVar[bool] = True

    def like(self, texts: Sequence[str]) -> list[str]:
        return [text for text in matching(DATE_LINES, starting(texts, DATE_STARTS))
                if (moment := moment_of(text)) and moment.days]

    def signs(self, column: Fields) -> set[str]:
        return set()

    def decide(self, column: Fields, signs: set[str]) -> Outcome:
        found, heading = spellings(column), column.options.heading
        keep = (option("--text", heading),)
        for texts in (found.forms.values(), found.zones.values()):
            if len(texts) > 1:
                first, second, *_ = texts
                return Ambiguity("{0} and {1} are of different forms", (first, second), keep)
        if found.odd:
            return Ambiguity("{0} and {1} are dates of different forms", (found.first, found.odd),
                             keep)
        clock = found.clock()
        if isinstance(clock, tuple):
            return Ambiguity("{0} and {1} are times of different forms", clock, keep)
        formats = found.formats or (ISO_DATE,)
        if len(formats) > 1 and not is_same(formats):
            return Ambiguity("{0} may be read in two ways", (found.first,), tuple(
                option("--date", f"{heading}={form}{next(iter(found.betweens), '')}{clock}")
                for form in formats) + keep)
        version = version_in(column) if formats[0] == VERSIONS and not clock else None
        if version:
            return Ambiguity("{0} may be a date or a version", (version,),
                             (option("--date", f"{heading}={VERSIONS}"), *keep))
        return decided(column, found, formats[0], clock)


def version_in(column: Fields) -> Optional[str]:
    """Returns a text whose day, month or year has one digit, as the numbers of versions may have,
    if there is one."""
    return next((text for texts in column.bare() for text in texts if not FULL.fullmatch(text)),
                None)


def is_same(formats: Sequence[str]) -> bool:
    """Returns whether formats read each date alike: those of short and of long names of months
    do."""
    return len({form.replace("%B", "%b") for form in formats}) == 1


def decided(column: Fields, found: Spellings, form: str, clock: str) -> Outcome:
    if not clock:
        return Decision(Dates(form))
    between = next(iter(found.betweens)) if len(found.betweens) == 1 else "T"
    kind = Times(f"{form}{between}{clock}", found.digits, "Z" if True in found.zones else "")
    return kind_that_fits(column, kind)


def kind_that_fits(column: Fields, kind: Times) -> Outcome:
    """Returns the kind of times, or what to do about times that are too far apart for 64 bits in
    their digits."""
    if kind.digits < 8:
        return Decision(kind)
    ends = [end * 10 ** (kind.digits - shape[2]) for shape,
            span in column.plain.shapes.items() for end in span]
    for texts in column.bare():
        ends += [number for number in map(kind.number, texts) if number is not None]
    if min(ends) < LEAST or max(ends) > GREATEST or max(ends) - min(ends) > GREATEST:
        return Ambiguity("its times have too many digits for 64 bits", (),
                         (option("--text", column.options.heading),))
    return Decision(kind)


# Booleans: false and true, in one of three spellings.


@dataclass(frozen=True)
class TruthDetector:
    plural: ClassVar[str] = "booleans"
    singular: ClassVar[str] = "a boolean"
    forms: ClassVar[tuple[str, ...]] = ()
    is_shared: ClassVar[bool] = False

    def like(self, texts: Sequence[str]) -> list[str]:
        return [text for text in texts if text in TRUTH_OF] if len(texts) <= len(TRUTH_OF) else []

    def signs(self, column: Fields) -> set[str]:
        return set()

    def decide(self, column: Fields, signs: set[str]) -> Outcome:
        spelled = {TRUTH_OF[text][1] for texts in column.bare() for text in texts}
        return Decision(Truths(*(next(iter(spelled)) if len(spelled) == 1 else TRUTHS[0])))


# What the spellings of a column's numbers have in common: marks, currencies, units, brackets,
# zeros and powers of ten.

# a telephone number has so many digits
LEAST_DIGITS = 7


@dataclass
class Survey:
    """The first text with each decimal sign, with each sign between thousands, with each mark that
    may be either, and with each unit before and behind; the first with leading zeros; the first
    that may be a telephone number; the first code such as 1E3, and the first that is neither one
    nor a whole number; the lengths of all; and whether one is in brackets."""
    decimals: dict[str, str] = field(default_factory=dict)
    groupings: dict[str, str] = field(default_factory=dict)
    eithers: dict[str, str] = field(default_factory=dict)
    affixes: dict[tuple[str, str], str] = field(default_factory=dict)
    zeros: str = ""
    phone: str = ""
    code: str = ""
    no_code: str = ""
    lengths: set[int] = field(default_factory=set)
    has_brackets: bool = False

    def add(self, texts: Sequence[str]) -> None:
        self.lengths.update(map(len, texts))
        rest = [text for text in texts if not SIMPLE.fullmatch(text)]
        if len(rest) < len(texts):
            simple = next(filter(SIMPLE.fullmatch, texts))
            self.affixes.setdefault(("", ""), simple)
        for text in rest:
            self.see(text)

    def see(self, text: str) -> None:
        if CODE.fullmatch(text):
            self.code = self.code or text
        elif not text.isdecimal():
            self.no_code = self.no_code or text
        if not self.phone and text[0] == "+" and PHONE.fullmatch(text) and \
                sum(map(str.isdecimal, text)) >= LEAST_DIGITS:
            self.phone = text
        found = parts_of(text)
        marks = marks_of(found.body) if found else None
        if not found or not marks:
            return
        self.affixes.setdefault((found.prefix, found.suffix), text)
        for known, mark in ((self.decimals, marks.decimal), (self.groupings, marks.grouping),
                            (self.eithers, marks.either)):
            if mark and (mark not in known or mark == "," and is_by_threes(text)
                         and not is_by_threes(known[mark])):
                known[mark] = text
        self.has_brackets = self.has_brackets or found.has_brackets
        self.zeros = self.zeros or (text if ZEROS.match(found.body) else "")

    @property
    def first(self) -> str:
        return next(iter(self.affixes.values()), "")

    def decimal(self) -> str | None:
        """Returns the decimal sign that the column shows, or nothing if it shows none; None if it
        shows more than one."""
        shown = set(self.decimals)
        shown |= {"," if mark == "." else "." for mark in self.groupings if mark[0] in ".,"}
        return None if len(shown) > 1 else next(iter(shown), "")

    def between(self) -> dict[str, str]:
        """Returns the first text with each sign between thousands. A number below a lakh shows
        nothing about where the next comma is."""
        found = dict(self.groupings)
        if LAKHS in found and not is_by_threes(found.get(",", "")):
            found.pop(",", None)
        return found

    def conflict(self) -> tuple[str, str] | None:
        """Returns two texts whose marks or units contradict each other, if there are any."""
        groupings = self.between()
        for texts in (self.decimals.values(), groupings.values(), self.affixes.values()):
            if len(texts) > 1:
                first, second, *_ = texts
                return first, second
        both = next((mark for mark in groupings if mark[0] in self.decimals), None)
        if both:
            return self.decimals[both[0]], groupings[both]
        if len(self.eithers) > 1 and self.decimal() in ("", None):
            first, second, *_ = self.eithers.values()
            return first, second
        return None

    def style(self, decimal: str) -> Style:
        """Returns the style of the column's numbers, whose decimal sign is given."""
        prefix, suffix = next(iter(self.affixes), ("", ""))
        grouping = next(iter(self.between()),
                        "") or next((mark for mark in self.eithers if mark != decimal), "")
        return Style(decimal, grouping, prefix, suffix, int(self.has_brackets))


def is_by_threes(text: str) -> bool:
    """Returns whether a number with a comma between thousands has more than one of them."""
    return text.count(",") > 1


# Numbers: whole numbers, decimals and floats, in one style.


@dataclass
class NumberDetector:
    """Looks for numbers. `survey` has what their spellings have in common, once it is known;
    `has_zeros` whether one has leading zeros, as codes have."""
    survey: Optional[Survey] = None
    has_zeros: bool = False
    plural: ClassVar[str] = "numbers"
    singular: ClassVar[str] = "a number"
    forms: ClassVar[tuple[str, ...]] = ("number", "float")

    @property
    def is_shared(self) -> bool:
        return not self.has_zeros

    def like(self, texts: Sequence[str]) -> list[str]:
        found = [text for text in matching(like_number(), starting(texts, STARTS))
                 if text.isdigit() or is_number(text)]
        self.has_zeros = self.has_zeros or any(map(ZEROS.match, found))
        return found

    def surveyed(self, column: Fields) -> Survey:
        if self.survey is None:
            self.survey = Survey()
            for texts in column.bare():
                self.survey.add(texts)
            self.survey.add(list(column.plain.samples.values()))
        return self.survey

    def signs(self, column: Fields) -> set[str]:
        return {self.surveyed(column).decimal() or ""} - {""}

    def decide(self, column: Fields, signs: set[str]) -> Outcome:
        survey, options = self.surveyed(column), column.options
        conflict = survey.conflict()
        if conflict:
            return Ambiguity("{0} and {1} are numbers with different signs", conflict,
                             (option("--text", options.heading),))
        if survey.zeros and not options.is_number:
            return with_zeros(survey, options.heading)
        is_wanted = options.is_number or options.digits is not None
        if survey.phone and not is_wanted and not has_minus(column):
            drop = option("--number", options.heading)
            return Decision(None, f"{shown(survey.phone)} and others have a leading +, which "
                                  f"{drop} drops")
        is_either = survey.code and not survey.no_code and are_whole(column)
        # if spellings are kept, it becomes a text in any case
        if is_either and not is_wanted and not options.rules.keeps_spelling:
            return Ambiguity("{0} may be a code, or a number with a power of ten", (survey.code,),
                             both(options.heading))
        sign = self.decimal_sign(column, signs)
        if isinstance(sign, Ambiguity):
            return sign
        return in_style(column, survey.style(sign))

    def decimal_sign(self, column: Fields, signs: set[str]) -> Union[str, Ambiguity]:
        """Returns the decimal sign of the column, or why it can't be decided."""
        survey, options = self.surveyed(column), column.options
        own, heading = survey.decimal(), options.heading
        thousands = options.rules.thousands
        if own and own == thousands:
            return Ambiguity(f"{{0}} has {thousands} before other than three digits",
                             (survey.decimals.get(own, survey.first),),
                             (option("--text", heading),))
        if thousands and thousands in survey.eithers and len(survey.eithers) == 1:
            return "," if thousands == "." else "."
        is_separator = options.rules.separator == "," and not options.is_number
        if own == "," and is_separator and not survey.groupings:
            return Ambiguity("{0} has a comma, which separates the fields", (survey.decimals[","],),
                             both(heading))
        if own or not survey.eithers:
            return own or "."
        (mark, text), = survey.eithers.items()
        if options.is_number:
            return mark
        if len(signs) == 1:
            return next(iter(signs))
        if mark == "." and is_separator and not signs:
            # decimals have a comma only if something else separates the fields
            return mark
        # another column has it as the decimal sign
        between = [] if mark in signs else [option("--thousands", mark)]
        return Ambiguity(f"{{0}} may be {text.replace(mark, '')} or {text.replace(mark, '.')}",
                         (text,), (*between, *both(heading)))


def has_minus(column: Fields) -> bool:
    """Returns whether a number is spelled with a minus sign."""
    spans = column.plain.spans
    return spans.reach[1] < 0 or any(least < 0 for least, _ in spans.ends.values()) or \
        any(text[0] == "-" for texts in column.bare() for text in texts)


def are_whole(column: Fields) -> bool:
    """Returns whether the fields that are stored as numbers are whole ones."""
    spans = column.plain.spans
    return not spans.is_float and not spans.digits


def both(heading: str) -> tuple[str, str]:
    """Returns the options that make a column one of numbers, or of texts."""
    return option("--number", heading), option("--text", heading)


def with_zeros(survey: Survey, heading: str) -> Decision:
    """Returns what becomes of codes with leading zeros. Those of one length have the same order as
    numbers and as texts."""
    drop = option('--number', heading)
    why = f"{shown(survey.zeros)} and others have leading zeros, which {drop} drops"
    return Decision(None, why, "" if len(survey.lengths) == 1 else "numbers")


def in_style(column: Fields, style: Style) -> Outcome:
    """Returns what a column of numbers in one style becomes."""
    options = column.options
    if options.digits is not None:
        return rounded(column, style, options.digits)
    spans = spans_of(column, style)
    number: Numbers
    if not spans.is_float and spans.fits():
        digits = spans.digits
        number = Decimals(digits,
                          int(len(spans.lengths) > 1 and not spans.has_zero)) if digits else Whole()
    elif not spans.is_float and not spans.digits and not options.is_number:
        rounds = option('--number', options.heading)
        why = f"numbers of more than 64 bits, which {rounds} rounds to the nearest doubles"
        return Decision(None, why, "numbers")
    else:
        text = too_large(column, style)
        if text is not None:
            return Ambiguity("{0} is too large for a double", (text,),
                             (option("--null", f"{options.heading}={text}"),
                              option("--text", options.heading)))
        text = None if options.is_number else no_double(column, style)
        if text is not None:
            near = f"{float(style.bare(text) or 0):.0f}"
            return Ambiguity(f"{{0}} is no double: the nearest is {near}", (text,),
                             (*digits_for(column, style), option("--text", options.heading)))
        number = Floats(0)
    return Decision(styled(number, style))


def styled(number: Numbers, style: Style) -> Kind:
    return number if style == Style() else Styled(number, style)


def spans_of(column: Fields, style: Style) -> Spans:
    """Returns what all numbers of a column span."""
    spans = column.plain.spans.copy()
    for texts in column.bare():
        simple = list(map(int, filter(SIMPLE.fullmatch, texts)))
        if simple:
            spans.widen(0, min(simple), max(simple))
        for text in texts if len(simple) < len(texts) else ():
            if not SIMPLE.fullmatch(text):
                spans.add(style.bare(text) or "")
    return spans


def rounded(column: Fields, style: Style, digits: int) -> Outcome:
    """Returns what becomes of numbers that are rounded to some digits."""
    rounding = Rounding(style, digits)
    numbers = [rounding.number(text) for texts in column.bare() for text in texts]
    present = [number for number in numbers if number is not None]
    least, greatest = min(present, default=0), max(present, default=0)
    if least < LEAST or greatest > GREATEST or greatest - least > GREATEST:
        return Ambiguity(f"its numbers don't fit 64 bits with {digits} digits after the point", (),
                         (option("--digits", f"{column.options.heading}=N") + " with fewer",
                          option("--text", column.options.heading)))
    number: Numbers = Decimals(digits, 0) if digits else Whole()
    return Decision(styled(number, style), rounding=rounding)


def no_double(column: Fields, style: Style) -> Optional[str]:
    """Returns a whole number that isn't a double, such as an id, if there is one."""
    whole = (column.texts(part) for part in column.parts
             if part.kept and part.kept.form == "number" and not part.kept.digits)
    for texts in itertools.chain(column.bare(), whole):
        for text in (each.strip(BLANKS) for each in texts if len(each) > SHORT):
            plain = style.bare(text) if style.mark not in text else None
            if plain and WHOLE.fullmatch(plain) and change_in_double(plain):
                return text
    return None


def digits_for(column: Fields, style: Style) -> tuple[str, ...]:
    """Returns the option that gives numbers as many digits as they have, or rounds them to doubles
    if so many don't fit 64 bits."""
    needed, most, heading = 0, 0, column.options.heading
    for texts in column.bare():
        for number in (decimal.Decimal(style.bare(text) or 0) for text in texts):
            needed = max(needed, -int(number.as_tuple().exponent))
            most = max(most, number.adjusted() + 1 if number else 0)
    does_fit = needed + most <= MOST_PLACES
    return (option("--digits", f"{heading}={needed}") if does_fit else
            f"{option('--number', heading)}, which rounds it",)


def too_large(column: Fields, style: Style) -> Optional[str]:
    """Returns a number that no double is near to, if there is one."""
    return next((text for texts in column.bare() for text in texts
                 if math.isinf(float(style.bare(text) or 0))), None)


# Dates and times in the format that an option names.


@dataclass(frozen=True)
class WantedDetector:
    """Looks for dates or times in one format."""
    form: str
    plural: ClassVar[str] = "dates"
    singular: ClassVar[str] = "a date in the format of --date"
    forms: ClassVar[tuple[str, ...]] = ()
    is_shared: ClassVar[bool] = True

    def like(self, texts: Sequence[str]) -> list[str]:
        form = format_of(self.form)
        kind = form.kind(MOST_DIGITS if form.has_part else 0)
        found = [text for text in texts if kind.number(text) is not None]
        if form.has_zone:
            # a literal of a query may lack its zone, a field may not
            found = [text for text in found
                     if (read := read_moment(form.form, text)) and read.has_zone]
        return found

    def signs(self, column: Fields) -> set[str]:
        return set()

    def decide(self, column: Fields, signs: set[str]) -> Outcome:
        form = format_of(self.form)
        digits = 0
        if form.has_part:
            digits = max((digits_of(form, text) for texts in column.bare() for text in texts),
                         default=0)
        kind = form.kind(digits)
        return kind_that_fits(column, kind) if isinstance(kind, Times) else Decision(kind)


def digits_of(form: DateFormat, text: str) -> int:
    """Returns how many digits a text has after the point of its seconds."""
    read = read_moment(form.form, text)
    return read.digits if read else 0


# What a column of texts looks like, though nobody reads it so: dates with the months of another
# language, numbers with different units, times of day, lengths of time, versions or addresses of
# the Internet. Code points don't order these.

# how the names of months begin in the languages of Europe
LIKE_STARTS = frozenset(
    "jan jän ene gen sty led feb fév fev lut úno mar mär mrt mac bře apr avr abr kwi dub may mai "
    "maj mei mag maí kvě jun jui juin giu cze čer jul lug lip aug aoû ago sie srp sep set wrz zář "
    "oct okt ott out paź říj nov lis dec dez déc dic gru pro oca şub nis haz tem ağu eyl eki kas "
    "ara".split())
# a date or a month with a word in it
NAMED = re.compile(r"(?:[^\W\d_]{2,10}\.?,? )?(?:[0-9]{1,2}(?:\.|st|nd|rd|th|er|º)?(?: de)?"
                   r"[-/. ]{1,2})?([^\W\d_]{3,10})\.?,?(?:(?: de)?[-/. ,']{1,2}[0-9]{1,4}){1,2}"
                   r"(?:[ T,].*)?")
MONTH = re.compile("[0-9]{1,2}/[0-9]{4}|Q[1-4][ /-]?[0-9]{4}|[1-4]Q[0-9]{2}")
# a number with any unit, with the minus sign or the dash of print, or a bound
AMOUNT = re.compile(r"([\u2212\u2013]|[<>~\u2264\u2265\u2248]=? ?)?[+-]?[0-9][0-9.,']*[ \u00a0]?"
                    r"([^\W\d_]{0,4}\.?|thousand|million|billion)")
CLOCK = re.compile(r"[0-9]{1,2}(?:(?:[:.][0-9]{2}){0,2} ?(?:[aApP]\.? ?[mM]\.?|Uhr)|h[0-9]{2})")
VERSION = re.compile(r"v?[0-9]+(?:\.[0-9]+){2,3}")
# the units that make a number larger
SIZE = re.compile("[kKMGTPmunµ]?i?B?")
UNIT = "(?:ms|[dhms]|min|hrs?|days?|hours?|mins?|minutes?|secs?|seconds?)"
LENGTH = re.compile("-?(?:[0-9]+ days?,? )?[0-9]+:[0-9]{2}(?::[0-9]{2})?(?:[.,][0-9]+)?|"
                    "-?P(?=[0-9T])(?:[0-9.]+[YMWD])*(?:T(?:[0-9.]+[HMS])+)?|"
                    f"(?:[0-9.]+ ?{UNIT},? ?)+")


def is_date(text: str) -> bool:
    named = NAMED.fullmatch(text)
    return bool(named and named[1][:3].lower() in LIKE_STARTS or MONTH.fullmatch(text)
                or DATE_LINES.fullmatch(text))


def is_clock(text: str) -> bool:
    return CLOCK.fullmatch(text) is not None


def is_amount(text: str) -> bool:
    return AMOUNT.fullmatch(text) is not None


def is_version(text: str) -> bool:
    return VERSION.fullmatch(text) is not None


def have_one_length(texts: Iterable[str]) -> bool:
    return len(set(map(len, filter(is_version, texts)))) == 1


def never(texts: Iterable[str]) -> bool:
    return False


def is_length(text: str) -> bool:
    return LENGTH.fullmatch(text) is not None


@dataclass(frozen=True)
class Likeness:
    """A detector of what texts look like, which decides nothing. `has_order` says of those of a
    column that look so whether code points order them."""
    plural: str
    is_like: Callable[[str], bool]
    forms: tuple[str, ...] = ()
    has_order: Callable[[Iterable[str]], bool] = never
    singular: ClassVar[str] = ""
    is_shared: ClassVar[bool] = False

    def like(self, texts: Sequence[str]) -> list[str]:
        return list(filter(self.is_like, texts))

    def is_likely(self, tried: Sequence[str]) -> bool:
        """Returns whether texts may look so of which these are tried, if there are many."""
        return not tried or sum(map(self.is_like, tried)) * 4 >= TRIED

    def signs(self, column: Fields) -> set[str]:
        return set()

    def decide(self, column: Fields, signs: set[str]) -> Outcome:
        return Decision(None)


def are_codes(texts: Iterable[str]) -> bool:
    """Returns whether numbers, some with units, are without any, or may be codes of one length,
    such as the seats 12A and 14C."""
    lengths, units = set[int](), set[str]()
    for text in texts:
        found = AMOUNT.fullmatch(text)
        if found:
            lengths.add(len(text))
            units.add((found[1] or "") + found[2])
    return units == {""} or len(lengths) == 1 and \
        (len(units) < 2 or not all(map(SIZE.fullmatch, units)))


LIKENESSES = (Likeness("lengths of time", is_length), Likeness("dates", is_date, ("time",)),
              Likeness("times of day", is_clock),
              Likeness("numbers with units", is_amount, ("number",), are_codes),
              Likeness("versions or addresses", is_version, (), have_one_length))
