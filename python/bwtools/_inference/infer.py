"""Chooses the kind of a column by its detectors."""
from __future__ import annotations

import itertools
import math
import shlex
from array import array
from dataclasses import dataclass, field, replace
from typing import Iterable, Iterator, Optional, Sequence

from .._csv import dialect
from .._csv.dialect import BLANKS
from .._csv.file import Source
from .._errors import Refused, counted, shown
from .._identifiers import option
from .._types.base import Kind, Nulls, Numbers, Styled
from .._types.dictionary import SortedList, TextBlocks, Texts
from .._types.number_format import Style, is_number
from .._types.numbers import Floats, Ranked, bits_of
from .._types.temporal import ISO_DATE, Times, is_like_date
from .ambiguity import Ambiguity, Asked, Decision, Detector, Outcome, refuse
from .detectors import (LIKENESSES, ClockDetector, DateDetector, NumberDetector, TruthDetector,
                        WantedDetector)
from .fields import Fields, Numbered, Run, values_of


# Gives the float columns of a table their numbers: one gap for all of them, or the places among a
# column's doubles.

WIDEST = 1 << 63


def settle_floats(columns: Sequence[Fields], decisions: list[Decision]) -> list[Decision]:
    """Returns the decisions, in which float columns have their gap, or their distinct doubles if
    they don't fit."""
    reaches = {place: reach_of(columns[place], decision) for place,
               decision in enumerate(decisions) if is_float(decision)}
    least = min((reach[0] for reach in reaches.values()), default=math.inf)
    gap = max(0, bits_of([least])[0] - 1) if math.isfinite(least) else 0
    found = list(decisions)
    for place, (_, low, high) in reaches.items():
        floats = Floats(gap)
        numbers = floats.numbers([low, high, 0.0]) if low <= high else [0]
        kind: Numbers = floats
        if max(numbers) - min(numbers) >= WIDEST:
            style = style_of(decisions[place])
            doubles = {each or 0.0 for each in doubles_of(columns[place], style)}
            kind = Ranked(SortedList(sorted(doubles)))
        found[place] = with_numbers(decisions[place], kind)
    return found


def is_float(decision: Decision) -> bool:
    kind = decision.kind.inner if isinstance(decision.kind, Styled) else decision.kind
    return isinstance(kind, Floats)


def style_of(decision: Decision) -> Style:
    return decision.kind.style if isinstance(decision.kind, Styled) else Style()


def with_numbers(decision: Decision, kind: Numbers) -> Decision:
    styled = decision.kind
    return replace(decision,
                   kind=Styled(kind, styled.style) if isinstance(styled, Styled) else kind)


def reach_of(column: Fields, decision: Decision) -> tuple[float, float, float]:
    """Returns a bound of the least magnitude above 0 of a column's doubles, the least and the
    greatest double."""
    least, low, high = column.plain.spans.reach
    style = style_of(decision)
    for digits, (first, last) in column.plain.spans.ends.items():
        power = 10 ** digits
        least, low, high = min(least, 1 / power), min(low, first / power), max(high, last / power)
    for texts in column.bare():
        doubles = [float(style.bare(text) or 0) for text in texts]
        if doubles:
            least = min(least, min(map(float.__abs__, filter(None, doubles)), default=math.inf))
            low, high = min(low, min(doubles)), max(high, max(doubles))
    return least, low, high


def doubles_of(column: Fields, style: Style) -> Iterator[float]:
    """Yields the doubles of a column, each of them once or more."""
    for texts in column.bare():
        yield from (float(style.bare(text) or 0) for text in texts)
    for part in column.parts:
        if part.kept:
            yield from numbered_doubles(part.kept)


def numbered_doubles(kept: Numbered) -> Sequence[float]:
    """Returns the doubles nearest to stored numbers."""
    numbers = values_of(kept)
    if kept.form == "float":
        return numbers
    power = 10 ** kept.digits
    return list(map(float, numbers)) if power == 1 else [number / power for number in numbers]


# Columns of texts: their sorted lists, and the places that their fields get in these.


@dataclass
class Sorted:
    """The kind of a column of texts; the place of each distinct field among its texts, or -1 for
    null, unless each field has its own place; and its first and its last text."""
    kind: Texts
    places: Optional[array[int]]
    ends: tuple[str, ...]


def text_ambiguity(column: Fields) -> Optional[Ambiguity]:
    """Returns what must be asked about blanks in a column of texts: whether texts that differ only
    in them are the same."""
    rules = column.options.rules
    if rules.keeps_blanks or rules.drops_blanks or not column.have_blanks:
        return None
    padded = {text.strip(BLANKS): text for part, texts in column.each() if part.has_blanks
              for text in texts if text[:1] in BLANKS or text[-1:] in BLANKS}
    for _, texts in column.each():
        for text in texts:
            bare = text.strip(BLANKS)
            if bare and padded.get(bare, text) != text:
                return Ambiguity("{0} and {1} differ only in blanks", (padded[bare], text),
                                 blanks_options(column))
    return None


def blanks_options(column: Fields) -> tuple[str, ...]:
    """Returns the options that say what becomes of the blanks of a column."""
    heading = column.options.heading
    return tuple(shlex.quote(f"--{what}-blanks={heading}") for what in ("drop", "keep"))


def sorted_texts(column: Fields) -> Sorted:
    """Returns the sorted texts of a column of codes."""
    if column.have_blanks and not column.options.rules.keeps_blanks:
        return without_blanks(column)
    assert column.dictionary is not None
    dictionary = column.dictionary
    found = [dictionary.find(word.encode()) for word in column.options.nulls
             if word in column.words]
    # a word may only be there with blanks around it, which are kept
    nulls = sorted(place for place in found if place is not None)

    def blocks() -> Iterator[list[bytes]]:
        for span in dictionary.spans:
            fields = dictionary.block(span).fields
            for place in reversed(nulls):
                if span.first <= place < span.end:
                    del fields[place - span.first]
            yield fields

    first = next((at for at, null in enumerate(nulls) if at != null), len(nulls))
    last = next((at for at, null in zip(itertools.count(len(dictionary) - 1, -1), reversed(nulls))
                 if at != null), len(dictionary) - 1 - len(nulls))
    ends = (first, last) if len(nulls) < len(dictionary) else ()
    return Sorted(Texts(TextBlocks(len(dictionary) - len(nulls), blocks)),
                  places_beside(nulls, len(dictionary)) if nulls else None,
                  tuple(dictionary.field(place).decode() for place in ends))


def places_beside(nulls: Sequence[int], count: int) -> array[int]:
    """Returns the places of fields among those that aren't null, and -1 for these."""
    places, first = array("i"), 0
    for before, place in enumerate(nulls):
        places.extend(range(first - before, place - before))
        places.append(-1)
        first = place + 1
    places.extend(range(first - len(nulls), count - len(nulls)))
    return places


def without_blanks(column: Fields) -> Sorted:
    """Returns the sorted texts of a column whose texts lose their blanks."""
    bare = [text.strip(BLANKS) for _, texts in column.each() for text in texts]
    listed = sorted(set(bare).difference(column.options.nulls))
    places = dict(zip(listed, range(len(listed))))
    encoded = list(map(str.encode, listed))
    return Sorted(Texts(TextBlocks(len(listed), lambda: [encoded])),
                  array("i", [places.get(text, -1) for text in bare]),
                  (listed[0], listed[-1]) if listed else ())


# The detectors of a column, and what they decide together.

# what separates words of ASCII
SPACES = b"\t\n\v\f\r\x1c\x1d\x1e\x1f "

# a column that is mostly of a kind, and has at most so many other words, is refused
MOST_WORDS = 3


@dataclass
class Candidate:
    """A detector as a candidate for a column: how many distinct texts are like its own, how many
    rows have these, and the first others, of which there may be more. Runs of which few texts can
    be like its own are left."""
    detector: Detector
    likes: int = 0
    rows: int = 0
    others: dict[str, None] = field(default_factory=dict)
    left: set[int] = field(default_factory=set)

    def add(self, run: Run) -> None:
        """Adds the texts of a run."""
        known = set(self.detector.like(run.bare))
        self.likes += len(known)
        if known:
            self.rows += sum(itertools.compress(run.counts, map(known.__contains__, run.texts)))
        if len(self.others) <= MOST_WORDS and len(known) < len(run.bare):
            others = (text for text in run.bare if text not in known)
            self.others.update(dict.fromkeys(itertools.islice(others, MOST_WORDS + 1)))

    def leaves(self, number: int, run: Run) -> bool:
        """Returns whether a run is left, since less than half of its texts, and of its fields, are
        like the detector's own."""
        if not run.texts_drawn:
            return False
        known = set(self.detector.like(sorted({*run.texts_drawn, *run.rows_drawn})))
        if any(sum(map(known.__contains__, each)) * 5 >= len(each) * 2
               for each in (run.texts_drawn, run.rows_drawn)):
            return False
        self.left.add(number)
        self.others.setdefault(next(text for text in run.texts_drawn if text not in known))
        return True


def others_of(column: Fields, candidate: Candidate) -> list[str]:
    """Returns the first texts that aren't like a detector's own, one more than may be refused."""
    found = dict(candidate.others)
    foreign = column.plain.forms - set(candidate.detector.forms)
    for part in column.parts if foreign else ():
        if len(found) > MOST_WORDS:
            break
        if part.kept and part.kept.form in foreign:
            bare = (text.strip(BLANKS) for text in column.texts(part))
            found.update(dict.fromkeys(itertools.islice(
                (text for text in bare if text not in column.options.words), MOST_WORDS + 1)))
    return list(found)[:MOST_WORDS + 1]


def count_fields(column: Fields, candidate: Candidate) -> tuple[int, int]:
    """Returns how many fields are like a detector's own, and how many there are, without nulls."""
    return candidate.rows + column.count_rows(candidate.detector.forms), column.filled


class Inference:
    """The candidates for a column, in order."""

    def __init__(self, column: Fields) -> None:
        self.column, options = column, column.options
        detectors: Iterable[Detector] = (TruthDetector(), NumberDetector(), DateDetector(),
                                         ClockDetector())
        is_asked = options.form is not None or options.is_number or options.digits is not None
        if options.form is not None:
            detectors = (WantedDetector(options.form),)
        elif is_asked:
            detectors = (NumberDetector(),)
        self.candidates = [] if options.is_text else list(map(Candidate, detectors))
        self.count = 0
        may_leave = not is_asked and not column.plain.forms
        for number, run in enumerate(column.runs):
            self.count += run.size
            for candidate in self.candidates:
                if not may_leave or not candidate.leaves(number, run):
                    candidate.add(run)
        # if other runs have some, all are counted
        late = [candidate for candidate in self.candidates if candidate.left and candidate.likes]
        for number, run in enumerate(column.runs if late else ()):
            for candidate in late:
                if number in candidate.left:
                    candidate.add(run)

    def winner(self) -> Optional[Detector]:
        """Returns the first detector to whom all fields are like its own, if there are any."""
        forms = self.column.plain.forms
        for candidate in self.candidates:
            is_own = forms <= set(candidate.detector.forms) and bool(candidate.likes or forms)
            if not candidate.others and is_own:
                return candidate.detector
        return None

    def outcome(self, signs: set[str]) -> Outcome:
        """Returns what the column becomes."""
        options, winner = self.column.options, self.winner()
        if winner:
            return winner.decide(self.column, signs)
        if not self.count and not self.column.plain.forms:
            return nothing(self.column)
        if options.is_text:
            return Decision(None, "by --text")
        if options.form is not None or options.is_number or options.digits is not None:
            return self.asked_for()
        return self.mostly() or self.looking() or Decision(None)

    def asked_for(self) -> Ambiguity:
        """Returns why a column isn't what an option says."""
        candidate, = self.candidates
        options, words = self.column.options, others_of(self.column, candidate)[:MOST_WORDS]
        name = "--number" if options.is_number else "--digits"
        name = "--date" if options.form is not None else name
        what = {"--date": f"a date in the format {options.form}"}.get(name, "a number")
        return Ambiguity(f"{listed(len(words))} {verb(len(words))} {what}, as {name} states",
                         tuple(words), (), True)

    def mostly(self) -> Optional[Outcome]:
        """Returns what becomes of a column that is mostly of one kind, if it is."""
        shared = [candidate for candidate in self.candidates if candidate.detector.is_shared and
                  (candidate.likes or self.column.plain.forms & set(candidate.detector.forms))]
        shares = [(*count_fields(self.column, candidate), candidate) for candidate in shared]
        for likes, count, candidate in sorted(shares, key=lambda share: -share[0]):
            if likes * 2 < count and (candidate.likes * 2 <= self.count or self.column.plain.forms):
                continue
            words, heading = others_of(self.column, candidate), self.column.options.heading
            # half of the fields don't show what the others should be, but these have no order
            if len(words) <= MOST_WORDS and likes * 2 != count:
                return few_words(candidate.detector, words, likes, count, heading)
            plural = candidate.detector.plural
            why = f"{likes:,} of {counted(count, 'field')} look like {plural}"
            return Decision(None, why, plural)
        return None

    def looking(self) -> Optional[Decision]:
        """Returns what becomes of a column of texts most of which look like something that no
        detector reads, if they do."""
        column = self.column
        candidates = list(map(Candidate, LIKENESSES))
        for run in column.runs:
            for each, candidate in zip(LIKENESSES, candidates):
                if each.is_likely(run.tried):
                    candidate.add(run)
        for each, candidate in zip(LIKENESSES, candidates):
            likes, count = count_fields(column, candidate) if candidate.likes else (0, 0)
            are_most = candidate.likes * 2 > self.count and not column.plain.forms
            if (are_most or likes * 2 > count) and not each.has_order(itertools.chain.from_iterable(
                    column.bare())):
                why = f"{likes:,} of {counted(count, 'field')} look like {each.plural}"
                return Decision(None, why, each.plural)
        return None


def few_words(detector: Detector, words: list[str], likes: int, count: int,
              heading: str) -> Ambiguity:
    share = f"{likes:,} of {counted(count, 'field')}"
    what = f"{listed(len(words))} {verb(len(words))} {detector.singular}, as {share} are"
    if detector.plural == "dates" and all(map(is_like_date, words)):
        what = f"{listed(len(words))} {verb(len(words))} a date"
    return Ambiguity(what, tuple(words), (option("--text", heading),), True)


def listed(count: int) -> str:
    """Returns places for some texts in a message."""
    places = [f"{{{place}}}" for place in range(count)]
    return " and ".join([", ".join(places[:-1]), places[-1]] if count > 1 else places)


def verb(count: int) -> str:
    return "isn't" if count == 1 else "aren't"


def nothing(column: Fields) -> Decision:
    """Returns what becomes of a column of nulls alone, or of words that are null only in other
    columns."""
    words = [word for word in words_of(column) if word not in column.options.nulls]
    return Decision(None,
                    f"only {shown(words[0])} and similar words") if words else Decision(Nulls())


def words_of(column: Fields) -> list[str]:
    """Returns the words for null that occur in a column."""
    return [word for word in column.options.words if word in column.words]


# Decides what each column of a file becomes. What can't be decided is refused, for all columns at
# once, with the options that decide it.


def decide(source: Source, columns: list[Fields], may_be_row: bool) -> list[Decision]:
    """Returns what each column becomes. Raises Refused with all that can't be decided, or for a
    heading that looks like a row, if it may be one."""
    inferences = [Inference(column) for column in columns]
    winners = [inference.winner() for inference in inferences]
    signs = {sign for winner,
             column in zip(winners, columns) if winner for sign in winner.signs(column)}
    outcomes = [decided(source, inference, signs) for inference in inferences]
    # the options that ambiguities name have headings
    if may_be_row and source.has_heading:
        refuse_heading(source, columns, outcomes)
    decisions = [each for each in outcomes if isinstance(each, Decision)]
    refuse(source, [Asked(place, column, outcome) for place, (column, outcome) in
                    enumerate(zip(columns, outcomes)) if isinstance(outcome, Ambiguity)])
    return settle_floats(columns, decisions)


def decided(source: Source, inference: Inference, signs: set[str]) -> Outcome:
    """Returns what a column becomes, or what must be asked about it."""
    outcome = inference.outcome(signs)
    if isinstance(outcome, Ambiguity):
        return outcome
    decision = exact(inference.column, outcome)
    return ambiguity_of(source, inference.column, decision) or decision


def ambiguity_of(source: Source, column: Fields, decision: Decision) -> Optional[Ambiguity]:
    """Returns what must be asked about a column that became one of texts, or that has no rows."""
    found = None
    if not decision.why and (decision.kind is None or not column.rows):
        found = table_ambiguity(source, column)
    return found or (text_ambiguity(column) if decision.kind is None else None)


def table_ambiguity(source: Source, column: Fields) -> Optional[Ambiguity]:
    """Returns what must be asked about the only column of a file, if it may be a table with another
    separator: its texts have the same number of one."""
    if not source.text.is_guessed or len(source.headings) > 1 or column.options.is_text or \
            column.plain.forms:
        return None
    heading = source.headings[0] if source.has_heading else None
    for sign in dialect.MORE:
        count = count_in_all(column, sign)
        if heading and not column.rows and all(map(is_number, heading.split())):
            # a row, and no heading
            count = dialect.count(heading, sign)
        # one in all rows but not in the heading may be a name, a time or an address
        if count > 1 or count and (heading is None or dialect.count(heading, sign) == count):
            what = f"{count} {sign!r}, which may separate fields"
            return Ambiguity(f"all its rows have {what}" if column.rows else
                             f"the only line has {what}", (),
                             (dialect.separator_option(sign),
                              option("--text", column.options.heading)))
    return None


def count_in_all(column: Fields, sign: str) -> int:
    """Returns how often a separator is in each text of a column, or 0 if not equally often."""
    found: Optional[int] = None
    if column.dictionary and not column.has_any(SPACES if sign == " " else sign.encode()):
        return 0
    for texts in column.bare():
        is_there = dialect.count("".join(texts), sign) > 0
        for count in (dialect.count(text, sign) for text in texts) if is_there else (0,):
            found = count if found is None else found
            if not count or count != found:
                return 0
    return found or 0


def exact(column: Fields, decision: Decision) -> Decision:
    """Returns a decision, or that for texts if --keep-spelling asks for fields that come back
    exactly, and one wouldn't."""
    if not column.options.rules.keeps_spelling or decision.kind is None:
        return decision
    kind, plain = decision.kind, column.plain
    lengths = plain.spans.lengths
    is_odd = any(is_changed(kind, column, text)
                 for texts in column.unkept() for text in texts)
    if not is_odd and not plain.padded and not (len(lengths) > 1 and plain.spans.has_zero) and \
            all(restores(kind, shape) for shape in plain.shapes):
        return decision
    return Decision(None, "some fields wouldn't be restored exactly", kind.plural)


def is_changed(kind: Kind, column: Fields, text: str) -> bool:
    """Returns whether a field comes back as another one. One that is null comes back as nothing,
    which the report says of words."""
    bare = text.strip(BLANKS)
    if bare in column.options.words:
        return not bare and bool(text) and column.options.rules.keeps_blanks
    return kind.text(kind.number(bare) or 0) != text


def restores(kind: Kind, shape: tuple[str, bool, int, str]) -> bool:
    """Returns whether times of a shape come back as they were."""
    between, has_seconds, digits, zone = shape
    form = f"{ISO_DATE}{between}%H:%M{':%S' if has_seconds else ''}"
    return isinstance(kind, Times) and (kind.form, kind.digits, kind.zone) == (form, digits, zone)


def refuse_heading(source: Source, columns: Sequence[Fields], outcomes: Sequence[Outcome]) -> None:
    """Rejects a first line that looks like the rows below it."""
    for column, outcome in zip(columns, outcomes):
        heading = column.options.heading
        detectors: list[Detector] = [DateDetector(), NumberDetector(), ClockDetector(),
                                     TruthDetector()]
        if column.options.form is not None:
            detectors = [WantedDetector(column.options.form)]
        if any(detector.like([heading]) and is_all_like(detector, column, outcome)
               for detector in detectors):
            raise Refused(f"{source.path}: the first line has {shown(heading)} above a column of "
                          "such fields: "
                          "use --no-heading if it is a row, or --heading if it is a heading")


def is_all_like(detector: Detector, column: Fields, outcome: Outcome) -> bool:
    """Returns whether all fields of a column are like a detector's own."""
    if isinstance(outcome, Decision) and isinstance(outcome.kind, Nulls):
        return True
    found = [(len(texts), len(detector.like(texts))) for texts in column.bare()]
    return column.plain.forms <= set(detector.forms) and all(count == likes for count,
                                                             likes in found) and \
        (bool(column.plain.forms) or any(count for count, _ in found))
