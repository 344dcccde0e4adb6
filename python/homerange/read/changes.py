"""What became of fixes since they were read: whether their rows are still the same, how many are gone, and which columns that
they were read from say something else."""

from __future__ import annotations

import hashlib
import re
from collections import Counter
from itertools import chain
from typing import TYPE_CHECKING, Any, Iterable, NamedTuple, Sequence

import numpy
import pandas
from numpy.typing import NDArray

from ..errors import refuse
from .cells import cells_of, is_time, row_named
from .letters import without_accents
from .text import Column, is_of_rows, is_there, plain

if TYPE_CHECKING:
    from .fixes import Reading

Numbers = NDArray[Any]
PLACES = ("easting", "northing")
# Usual titles of what says which fixes count, or where they are, by which columns that were added to fixes are judged too.
JUDGED = {
    "lc", "class", "loc-class", "locationclass", "argos-loc-class", "argos-location-class", "argos-lc", "argos-class", "loc--quality",
    "location-quality", "location-class", "sensor-type", "sensor-type-id", "utm-zone", "zone", "zona", "huso", "fuso", "fuseau", "utmz", "utmzone",
    "utm-zone-number", "zone-number", "zonenumber", "zone-letter", "zoneletter", "grid-zone", "epsg", "epsg-code", "srid", "crs"}
# Words of titles that say so too, and words and titles beside which one of the first says nothing.
WORDS_OF_MARKS = {
    "outlier", "outliers", "outlying", "isoutlier", "isoutliers", "valid", "isvalid", "invalid", "isinvalid", "visible", "isvisible",
    "invisible", "ausreisser", "ausreißer", "valide", "valido", "aberrant", "valida", "invalido", "invalida", "invalide", "gultig",
    "ungultig", "gueltig", "ungueltig", "avvikare", "avvikande", "avviker", "avvikende", "uitbijter", "uitbijters", "uitschieter",
    "uitschieters", "geldig", "ongeldig", "gyldig", "ugyldig", "giltig", "ogiltig", "platny", "platna", "platne", "neplatny", "neplatna",
    "neplatne", "wazny", "wazne", "niewazny", "niewazne", "veljaven", "veljavna", "veljavno", "neveljaven", "neveljavna", "osamelec",
    "odlehla", "odlehly", "odlahla", "odstajacy", "odstajaca", "kiugro", "ervenyes", "ervenytelen", "poikkeava", "aykiri", "gecerli",
    "gecersiz", "aberrante", "atipico", "atipica", "anomalo", "anomala", "valabil", "выброс", "выбросы", "деиствителен"}
WORDS_OF_GRIDS = {
    "zone", "zones", "zona", "zonas", "zonen", "huso", "fuso", "fuseau", "utm", "utmz", "utmzone", "zonenumber", "zoneletter", "mgrs",
    "strefa", "pasmo", "cona", "pojas", "пояс", "зона", "dilim", "dilimi", "fus", "sone", "vyohyke", "josla", "juosta", "ζωνη", "epsg",
    "srid", "crs", "srs"}
WORDS_OF_SATELLITES = {"sat", "sats", "satellite", "satellites", "sv", "svs"}
NO_MARKS = {"argos-valid-location-algorithm", "argos-valid-location-manual", "outlier-comments"}
MARKS = {"use", "visible", "manually-marked-outlier", "algorithm-marked-outlier", "import-marked-outlier", "manually-marked-valid"}


class Seen(NamedTuple):
    """Fixes as they were read: a number for each by its moment and its place, the columns that it was read from, or that say which
    fixes count, and a number for each by that and by its label, where labels are those of the table."""

    keys: Numbers
    columns: dict[str, pandas.Series]
    labels: Numbers | None


def title_of_time(fixes: pandas.DataFrame) -> str:
    """The title of the times of fixes."""
    return "time" if "time" in fixes else "second"


def own_titles(fixes: pandas.DataFrame) -> list[str]:
    """The titles of what fixes have of their own."""
    return ["animal", title_of_time(fixes), *PLACES]


def seen(fixes: pandas.DataFrame, sources: Iterable[str], is_labelled: bool) -> Seen:
    """Fixes as they were read from columns with these titles, as far as they have them, by the labels of their table if they have
    these."""
    own, there = own_titles(fixes), [*map(str, fixes.columns)]
    wanted = [*sources, *(title for title in there if says_which_count(title) and title not in sources)]
    titles = [title for title in wanted if title not in own and there.count(title) == 1]
    columns = (fixes.iloc[:, there.index(title)] for title in titles)
    keys = keys_of(fixes)
    return Seen(keys, {title: column.reset_index(drop=True).copy() for title, column in zip(titles, columns)},
                hashed(keys, fixes.index) if is_labelled else None)


def keys_of(fixes: pandas.DataFrame) -> Numbers:
    """A number for each fix, by its moment and its place."""
    moments = fixes[title_of_time(fixes)]
    if not pandas.api.types.is_numeric_dtype(moments.dtype):
        moments = pandas.to_datetime(moments, utc=True, errors="coerce").dt.tz_localize(None)
    places = [pandas.to_numeric(fixes[title], errors="coerce") for title in PLACES]
    return hashed(moments, *(numpy.asarray(place, dtype="float64") + 0.0 for place in places))  # 0 and -0 are one place


def hashed(*columns: Any) -> Numbers:
    """A number for each row of columns, the same for rows that are alike."""
    table = pandas.DataFrame({at: numpy.asarray(column) for at, column in enumerate(columns)})
    return numpy.asarray(pandas.util.hash_pandas_object(table, index=False))


def are_among(some: Numbers, others: Numbers) -> NDArray[numpy.bool_]:
    """Which of some numbers are among others, each of these once."""
    one, other = (hashed(own, pandas.Series(own).groupby(own).cumcount()) for own in (some, others))
    return numpy.isin(one, other)


def is_among(some: Numbers, others: Numbers) -> NDArray[numpy.bool_]:
    """Which of some numbers are among others, however often."""
    return numpy.asarray(pandas.Series(some).isin(others))


def judged_rows(fixes: pandas.DataFrame, titles: frozenset[str]) -> pandas.DataFrame:
    """The rows of fixes as the program may read them again: animals, times, places, marks that say which are used, and what was
    added since they were read, of a table with these titles, that says which count, or where they are."""
    rows = with_named_levels(fixes)
    refuse_other_animals(fixes)
    own = [[*rows.columns].index(title) for title in own_titles(fixes)]
    marks = [at for at, title in enumerate(rows.columns) if is_judged(str(title), titles)]
    return rows.iloc[:, [*own, *marks]]


def refuse_other_animals(fixes: pandas.DataFrame) -> None:
    """Refuses fixes whose index has a level of other animals than their column."""
    own = Column("animal", fixes["animal"])
    for at, name in enumerate(fixes.index.names):
        if name == "animal" and not is_there(Column(name, fixes.index.get_level_values(at).to_series().reset_index(drop=True)), [own]):
            refuse("animal is a column of the fixes and a level of their index, which differ: rename the level, or take it away, "
                   "as by reset_index(drop=True), or set the column to it", "ambiguous")


def is_judged(title: str, titles: frozenset[str]) -> bool:
    """Whether a column of this title is one of marks, also of those that no table may have without use, or was added and says which
    fixes count, or where they are."""
    own = plain(title)
    is_of_doubt = own in JUDGED or not words_of(title).isdisjoint(WORDS_OF_GRIDS)
    return own in MARKS or may_be_mark(title) or is_of_doubt and title not in titles


def says_which_count(title: str) -> bool:
    """Whether a column of this title says which fixes count, and not where they are, which the program tells by its cells."""
    is_of_count = plain(title) in MARKS | JUDGED and words_of(title).isdisjoint(WORDS_OF_GRIDS)
    return is_of_count or may_be_mark(title)


def words_of(title: str) -> set[str]:
    """The words of a title, in small letters without accents: docs/TABLES.md, Titles."""
    letters = "a-z\u00c0-\u1fff\u3000-\U0010ffff"  # small ones, and all that are none of ASCII
    return {without_accents(word) for word in re.findall(f"[A-Z]*[{letters}]+|[A-Z]+|[0-9]+", title)}


def may_be_mark(title: str) -> bool:
    """Whether a word of a title says that a column may have marks."""
    words = words_of(title)
    return not words.isdisjoint(WORDS_OF_MARKS) and words.isdisjoint(WORDS_OF_SATELLITES) and plain(title) not in NO_MARKS


def with_named_levels(frame: pandas.DataFrame) -> pandas.DataFrame:
    """A frame whose rows have numbers, and behind its columns the levels of its index that have a name."""
    rows, index = pandas.DataFrame(frame).copy(deep=False), frame.index
    rows.index = pandas.RangeIndex(len(frame))
    there = [Column(str(title), rows.iloc[:, at]) for at, title in enumerate(rows.columns)]
    levels = [Column(str(name), index.get_level_values(at).to_series(index=rows.index))
              for at, name in enumerate(index.names) if name is not None and not is_of_rows(index)]
    more = [level.values.rename(level.title) for level in levels if not is_there(level, there)]
    return pandas.concat([rows, *more], axis="columns") if more else rows


def checksum_of_rows(fixes: pandas.DataFrame, titles: frozenset[str]) -> str:
    """A checksum of such rows, in their order; none of marks that are lists, which the program did not take."""
    rows = judged_rows(fixes, titles)
    try:
        hashes = pandas.util.hash_pandas_object(rows, index=False)
    except TypeError:
        return ""
    columns = repr([(title, kind.kind) for title, kind in zip(rows.columns, rows.dtypes)])  # moments and nanoseconds have one hash
    return hashlib.sha256(columns.encode("utf-8", "surrogatepass") + hashes.to_numpy().tobytes()).hexdigest()


class Left(NamedTuple):
    """How many fixes were left out, by animal and reason, and the animals of which it is not known, since some that are counted of
    none may be theirs."""

    counts: Counter[tuple[str, str]]
    unknown: frozenset[str]


def left_since(fixes: pandas.DataFrame, reading: Reading) -> Left:
    """How many fixes were left out when they were read, or were taken away since: those of which no row has the moment and the
    place, but for as many as there are rows that were changed. Of no animal are those of one of whose fixes another name is now, or
    that has more than were read of it, with those that were taken away."""
    read, names, keys = keys_read(reading), names_read(reading), keys_of(fixes)
    own = numpy.array(cells_of(fixes["animal"]), dtype=object)
    if numpy.array_equal(read, keys) and numpy.array_equal(names, own):
        return Left(Counter(reading.left), reading.unknown)
    missing, unsure = missing_of(read, names, keys, own)
    changed, now = (Counter[str](several.tolist()) for several in (own[~is_among(keys, read)], own))
    gone = missing - changed
    if changed - missing:  # of animals that had other names
        unsure |= {*gone}
        gone = +Counter({"": sum(missing.values()) - sum(changed.values())})
    unsure |= {name for name in {*now, *gone} if now[name] + gone[name] > reading.counts.get(name, 0)}
    found = Counter[tuple[str, str]]()
    for (name, reason), count in chain(reading.left.items(), (((name, "chosen"), count) for name, count in gone.items())):
        found["" if name in unsure else name, reason] += count
    is_moved = gone[""] > 0 or any(name in unsure for name in (*gone, *(name for name, _ in reading.left)))
    odd = {name for name in now if name in unsure or now[name] + gone[name] != reading.counts.get(name, 0)}
    return Left(found, frozenset((reading.unknown & {*now}) | (odd if is_moved or reading.unknown else set())))


def missing_of(read: Numbers, names: Numbers, keys: Numbers, own: Numbers) -> tuple[Counter[str], set[str]]:
    """How many fixes of each animal that were read are not there, and the animals one of whose fixes has another name now. Of those
    that share a moment and a place such as are there under their own name are told first."""
    whole, now, is_shared = hashed(read, names), hashed(keys, own), numpy.asarray(pandas.Series(read).duplicated(keep=False))
    is_there, is_own, others = is_among(read, keys), is_among(whole, now), is_among(keys, read[is_shared])
    is_own[is_shared] = are_among(whole[is_shared], now[others])
    free = keys[others][~are_among(now[others], whole[is_shared])]  # rows that have the name of none of these
    is_there[is_shared] = is_own[is_shared] | is_among(read[is_shared], free)
    missing, is_lost = Counter[str](names[~is_there].tolist()), is_shared & is_there & ~is_own
    missing[""] = int(numpy.count_nonzero(~are_among(read[is_lost], free)))
    return missing, {*names[is_there & ~is_own].tolist()}


def parts_of(reading: Reading) -> Sequence[Reading]:
    """The readings of which fixes were bound, or this one."""
    return reading.parts or (reading,)


def keys_read(reading: Reading) -> Numbers:
    """The numbers of all fixes that were read."""
    return numpy.concatenate([part.seen.keys for part in parts_of(reading) if part.seen is not None])


def names_read(reading: Reading) -> Numbers:
    """The animal of each fix that was read."""
    several = [(name, count) for part in parts_of(reading) for name, count in part.counts.items()]
    return numpy.repeat(numpy.array([name for name, _ in several], dtype=object), [count for _, count in several])


def are_rows_of_table(fixes: pandas.DataFrame, reading: Reading) -> bool:
    """Whether fixes are those of the rows of their table, each of its own, in the order of these."""
    names = numpy.array(cells_of(fixes["animal"]), dtype=object)
    return reading.is_in_order and not reading.parts and numpy.array_equal(keys_read(reading), keys_of(fixes)) and numpy.array_equal(
        names_read(reading), names)


def has_labels(fixes: pandas.DataFrame, reading: Reading) -> bool:
    """Whether each of some fixes has a label of its own, that of its row in the table."""
    several = [part.seen.labels for part in parts_of(reading) if part.seen is not None]
    known = [labels for labels in several if labels is not None]
    is_whole = len(known) == len(several) > 0 and fixes.index.is_unique
    return is_whole and bool(is_among(hashed(keys_of(fixes), fixes.index), numpy.concatenate(known)).all())


def refuse_unread(fixes: pandas.DataFrame, reading: Reading, read: frozenset[str]) -> None:
    """Refuses a column that was added to fixes and says which count, if it is not among those that the program read."""
    for title in map(str, with_named_levels(fixes).columns):
        if says_which_count(title) and title not in reading.titles and title not in read:
            refuse(f"{title!r} was added to the fixes, and is not read{goes_before(title, read)}", "columns")


def refuse_unread_rows(fixes: pandas.DataFrame, reading: Reading) -> None:
    """Refuses a row that was not read, of an animal that has more than were read of it, or of which none was: of others, as many were
    changed."""
    keys, read = keys_of(fixes), pandas.Series(keys_read(reading))
    names = numpy.array(cells_of(fixes["animal"]), dtype=object)
    more = {name for name, count in Counter(names.tolist()).items() if count > reading.counts.get(name, 0)}
    if not more:
        return
    firsts = pandas.Series(keys[~pandas.Series(hashed(keys, names)).duplicated().to_numpy()])  # one of each animal
    several, known = (own.value_counts().reindex(keys, fill_value=0).to_numpy() for own in (firsts, read))
    odd = numpy.flatnonzero(pandas.Series(names).isin(more).to_numpy() & (several > known))
    if len(odd):
        at = int(odd[0])
        refuse(f"{row_named(fixes.index, at)}: this fix of {names[at]!r} was not read with the others: bind tables that read_fixes has "
               "read, by pandas.concat; or if its animal has a new name, or all are alike, read pandas.DataFrame(fixes) as a new table",
               "option", at + 1)


def goes_before(title: str, read: Iterable[str]) -> str:
    """What goes before a column that is not read, and what helps."""
    usual = "sensor-type" if plain(title).startswith("sensor-") else "use"
    first = next((own for form in (plain(title), usual) for own in read if plain(own) == form), None)
    return ": drop it" if first is None else f", since {first!r} goes before it: change that, or drop {title!r}"


def refuse_changed(fixes: pandas.DataFrame, reading: Reading, read: Iterable[str] = ()) -> None:
    """Refuses fixes that are as they were read, while a column was changed that they were read from, or that says which count, but
    for those that were read again."""
    parts, rows = [part.seen for part in parts_of(reading) if part.seen is not None], with_named_levels(fixes)
    there, sources = [*map(str, rows.columns)], {title for part in parts_of(reading) for title in part.sources}
    titles = dict.fromkeys(title for part in parts for title in part.columns if title not in read and there.count(title) == 1)
    for title in titles:
        own = [part for part in parts if title in part.columns]
        odd = odd_rows(rows, rows.iloc[:, there.index(title)], own, None if title in sources else keys_read(reading))
        if len(odd):
            at, why = int(odd[0]), " from it: change what fixes have of it, such as easting and northing, and drop it"
            why = why if title in sources else f", and is not read{goes_before(title, [own for own in there if own in {*sources, *read}])}"
            refuse(f"{row_named(fixes.index, at)}: {title!r} was changed since this fix was read{why}", "columns", at + 1)


def odd_rows(rows: pandas.DataFrame, column: pandas.Series, parts: Sequence[Seen], others: Numbers | None) -> Numbers:
    """The rows of which a cell of a column was changed: of a column that was not read also those that are not among others, the fixes
    that were read, if the cell is one that no fix had."""
    title, keys = str(column.name), keys_of(rows)
    read, then = numpy.concatenate([part.keys for part in parts]), pandas.concat([part.columns[title] for part in parts], ignore_index=True)
    if column.equals(then):
        return numpy.empty(0, dtype=int)
    odd = changed_rows(keys, column, read, then)
    odd = odd[~say_own(column.iloc[odd], rows.iloc[odd])]
    if others is None:
        return odd
    now, known = (with_values(numpy.zeros(len(own)), own) for own in (column, then))
    return numpy.union1d(odd, numpy.flatnonzero(~is_among(keys, others) & ~is_among(now, known)))


def changed_rows(keys: Numbers, column: pandas.Series, read: Numbers, then: pandas.Series) -> Numbers:
    """The rows whose moment and place were read, and with them another value of a column."""
    firsts = numpy.flatnonzero(~pandas.Series(read).duplicated())
    places = pandas.Index(read[firsts]).get_indexer(keys)
    known = numpy.flatnonzero(places >= 0)
    rest = known[~are_alike(column.iloc[known], then.iloc[firsts[places[known]]])]
    is_one = is_among(read, keys[rest])
    return rest[~is_among(with_values(keys[rest], column.iloc[rest]), with_values(read[is_one], then[is_one]))]


def say_own(column: pandas.Series, fixes: pandas.DataFrame) -> NDArray[numpy.bool_]:
    """Which cells of a column say what the fix of their row has of itself, such as its time by its own clock."""
    rows, own = numpy.arange(len(fixes)), [fixes[title] for title in own_titles(fixes)]
    if is_time(own[1].dtype):
        own += [own[1].dt.tz_localize(None), own[1].dt.date]
    whole = column.dt.floor("s") if is_time(column.dtype) else column
    cells = with_values(rows, whole)
    return numpy.asarray(numpy.any([cells == with_values(rows, values) for values in own], axis=0))


def are_alike(one: pandas.Series, other: pandas.Series) -> NDArray[numpy.bool_]:
    """Which values of two columns are the same at once, without their texts."""
    now, then = one.reset_index(drop=True), other.reset_index(drop=True)
    if is_time(now.dtype) != is_time(then.dtype):  # pandas would read texts as times of UTC
        return numpy.zeros(len(now), dtype=bool)
    try:
        same = (now == then) | now.isna() & then.isna()
    except (TypeError, ValueError):
        return numpy.zeros(len(now), dtype=bool)
    return numpy.asarray(same.astype("boolean").fillna(False), dtype=bool)


def with_values(keys: Numbers, column: pandas.Series) -> Numbers:
    """The numbers of fixes, each with that of its cell of a column: a number of whatever class, or a text."""
    cells = pandas.Series(cells_of(column), dtype=object)
    numbers = pandas.to_numeric(cells, errors="coerce").astype("float64")
    return hashed(keys, numbers, cells.where(numbers.isna(), ""))
