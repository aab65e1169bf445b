"""Policies of collection as texts: cutoffs, durations and patterns; and what a policy is at a moment.

A cutoff that is asked for is `(ALL,)`, `(COMMITS, count)`, `(SINCE, instant)` or `(BACK, micros)`; the
last becomes an instant at the moment of the call.
"""

import re

import instants
from catalogue import ALL, COMMITS, SINCE

BACK = "Back"
MOST_COMMITS = (1 << 32) - 1

# What a duration may have of each unit, in the order in which they are written. Numbers of the clock's
# units may be greater: what passes goes to the smaller ones.
DATE_UNITS = (("Y", 19998), ("M", 239976), ("W", 1043497), ("D", 7304484))
TIME_UNITS = (("H", 3600 * 10 ** 9), ("M", 60 * 10 ** 9), ("S", 10 ** 9))
CLOCK = ((3600 * 10 ** 9, 175307616), (60 * 10 ** 9, 10518456960), (10 ** 9, 631107417600),
         (10 ** 6, 631107417600000), (10 ** 3, 631107417600000000), (1, (1 << 63) - 1))
DAY = 24 * 3600 * 10 ** 9

DATE_PART = re.compile(r"([0-9]+)([YMWDymwd])")
TIME_PART = re.compile(r"([0-9]+)(?:[.,]([0-9]{1,9}))?([HMShms])")


def units(text, part, order):
    """The numbers of the units that a text is made of, each smaller than the one before, or None."""
    found, at, last, ended = [], 0, -1, False
    while at < len(text):
        m = part.match(text, at)
        if m is None or ended or len(m[1]) > 21 or int(m[1]) >= 1 << 64:
            return None
        unit = order.index(m[m.lastindex].upper())
        if unit <= last:
            return None
        fraction = m[2] if m.lastindex == 3 else None
        found.append((unit, int(m[1]), fraction))
        last, at, ended = unit, m.end(), fraction is not None
    return found


def duration(text):
    """The microseconds of a duration in the form of ISO 8601 without years and months, or None."""
    date, clock, time = text[1:].replace("t", "T").partition("T")
    dates = units(date, DATE_PART, [name for name, _ in DATE_UNITS])
    times = units(time, TIME_PART, [name for name, _ in TIME_UNITS])
    if dates is None or times is None or (not times if clock else not dates):
        return None
    days = nanos = 0
    for unit, number, _ in dates:
        name, most = DATE_UNITS[unit]
        if number > most or name in "YM" and number:
            return None
        days += number * {"W": 7, "D": 1}.get(name, 0)
    for unit, number, fraction in times:
        _, size = TIME_UNITS[unit]
        nanos += number * size
        if fraction is not None:
            nanos += int(fraction.ljust(9, "0")) * size // 10 ** 9
    left = nanos
    for size, most in CLOCK:
        left -= min(left // size, most) * size
    if left:
        return None
    return (days * DAY + nanos) // 1000


def cutoff(text):
    """The cutoff that a text is, or None."""
    if text.upper() == "NONE" and text.isascii():
        return (ALL,)
    if re.match(r"[0-9]{1,10}\Z", text):
        return (COMMITS, int(text)) if 1 <= int(text) <= MOST_COMMITS else None
    if text.startswith("P"):
        back = duration(text)
        return None if back is None else (BACK, back)
    since = instants.read(text)
    return None if since is None else (SINCE, since)


def at_moment(given, moment):
    return (SINCE, max(moment - given[1], 0)) if given[0] == BACK else given


def resolved(policy, moment):
    """What is kept at a moment."""
    default, pairs = policy
    return at_moment(default, moment), [(pattern, at_moment(given, moment)) for pattern, given in pairs]
