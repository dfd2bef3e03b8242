"""What the log of a site says: its history, what others overrode, and whether all is well."""
import calendar
import os
import re
import time
from typing import Dict, Iterator, List, Optional, Tuple

from .._answers import Change, Status
from ._documents import edit_of, row_of, texts_of
from ._log import SECONDS_OF_A_DAY, Exchange, Line, Log, moment
from ._place import Place, is_overridden, shown
from ._shared import (
    LIMIT, MILLISECONDS_OF_A_DAY, USAGE, Fault, clock, compact, count_of, moment_of,
)

MEGABYTE = 1_000_000
# Two sites of more than this part of what a command reads are too large for one command.
HALF = 0.5


def _seconds(when: str) -> int:
    """The seconds since 1970 of a moment of the log."""
    return calendar.timegm(tuple(map(int, re.findall("[0-9]+", when))))


def _local(when: str) -> str:
    """A moment of the log by the clock of this place."""
    return moment_of(_seconds(when) * 1000)


def log_lines(log: Log, id: Optional[str] = None, language: Optional[str] = None) -> List[str]:
    """The lines of the log, of one message or of all, as a person reads them."""
    lines = []
    for it in log.lines():
        begin = f"{_local(it.when)}  {it.by}"
        if isinstance(it, Exchange):
            if id is None:
                lines.append(begin + (f" ({', '.join(it.sites)})" if it.sites else ""))
        elif id in (None, it.change.id) and language in (None, it.change.language):
            edit = it.change
            by = f", by {edit.after.stamp.site}" if edit.after else ""
            lines.append(
                f"{begin}: {compact(edit.id)} {edit.language}:"
                f" {shown(edit.before)} -> {shown(edit.after)}{by}"
            )
    return lines


def _overridden(
    log: Log, site: bytes, name: str, since: Optional[str]
) -> Iterator[Change]:
    """The last change by which another site overrode each label of this one, since a moment or in
    the last exchange, if the label has no text of this site now."""
    if since is None:
        last = next((it for it in log.backwards() if isinstance(it, Exchange)), None)
        if last is None:
            return
        since = last.when
    found: Dict[Tuple[str, str], Change] = {}
    for it in log.lines():
        if isinstance(it, Line) and it.when >= since:
            edit = it.change
            if is_overridden(edit, name):
                found[edit.id, edit.language] = edit
            elif edit.after is not None and edit.after.stamp.site == name:
                found.pop((edit.id, edit.language), None)
    for edit in found.values():
        row = row_of(site, edit.id, edit.language)
        if row and row[3] != name and edit.before is not None and row[5] != edit.before.texts:
            yield edit


def _since(text: Optional[str]) -> Optional[str]:
    """The beginning of a day, or a moment of it, by the clock of this place, as the log has it."""
    if text is None:
        return None
    for form in ("%Y-%m-%d", "%Y-%m-%d %H:%M", "%Y-%m-%dT%H:%M"):
        try:
            return moment(time.mktime(time.strptime(text, form)))
        except (ValueError, OverflowError):
            continue
    raise Fault(
        f"--since {text} is neither a day (2026-12-01) nor a time (2026-12-01 10:00)", USAGE
    )


def conflicts(log: Log, site: bytes, name: str, since: Optional[str]) -> List[str]:
    """What others overrode, both texts, who and when, as a person reads it."""
    lines = []
    for it in _overridden(log, site, name, _since(since)):
        assert it.before is not None and it.after is not None
        after = it.after.stamp
        lines += [
            f"message {compact(it.id)} in {it.language}",
            f"    yours:  {shown(it.before)} ({moment_of(it.before.stamp.time)})",
            f"    theirs: {shown(it.after)} ({after.site}, {moment_of(after.time)})",
        ]
    return lines


def edit_to_have_mine(
    log: Log, site: bytes, name: str, id: str, language: str
) -> Optional[bytes]:
    """What `update` reads to put back the text of this site that another one overrode last; None if
    there is none."""
    for it in _overridden(log, site, name, ""):
        if (it.id, it.language) == (id, language) and it.before is not None:
            return edit_of([(id, language, texts_of(site, id, language), it.before.texts)])
    return None


def doctor(place: Place, site: bytes, status: Status) -> Tuple[List[str], bool]:
    """What is to be known of a site, a line each, and whether all is well."""
    faults: List[str] = []
    deleted = status.cells - status.labels
    share = len(site) / LIMIT
    lines = [
        f"site {status.site}: {count_of(status.labels, 'label')}, {count_of(deleted, 'deletion')},"
        f" {len(site) / MEGABYTE:.1f} MB, {share:.0%} of what a command reads",
    ]
    if share > HALF:
        faults.append(
            f"the site is over half of the {LIMIT} bytes that a command reads, so a sync or a merge"
            " with another as large is refused: docs/SCALING.md says how to split it"
        )
    if status.last is None:
        lines.append("last edit: none")
    else:
        lines.append(f"last edit: {moment_of(status.last.time)}, by {status.last.site}")
        if status.last.time > clock() + MILLISECONDS_OF_A_DAY:
            faults.append(
                "an edit is more than a day ahead of this clock: other sites refuse it, and all"
                " that is sent with it; check that the clocks are right"
            )
    lines += _lines_of_log(place.log)
    if not place.log.can_grow():
        faults.append(
            f"{place.log.path} cannot be written: no edit is logged, and conflicts shows nothing"
        )
    try:
        place.check_not_older(site)
    except Fault as fault:
        faults.append(str(fault))
    return lines + [f"FAULT: {it}" for it in faults], not faults


def _lines_of_log(log: Log) -> List[str]:
    """The age of the log, and the last exchange with each other site."""
    first, exchanges = None, {}
    for it in log.lines():
        first = first or it
        if isinstance(it, Exchange):
            exchanges.update(dict.fromkeys(it.sites or [it.by], it.when))
    if first is None:
        return ["log: none yet; it begins with the next edit"]
    size = os.path.getsize(log.path) / MEGABYTE
    age = count_of(int(time.time() - _seconds(first.when)) // SECONDS_OF_A_DAY, "day")
    lines = [f"log: since {_local(first.when)} ({age}), {size:.1f} MB"]
    last = sorted(exchanges.items())
    return lines + [f"last exchange, {site}: {_local(when)}" for site, when in last]
