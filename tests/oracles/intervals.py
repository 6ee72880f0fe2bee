#!/usr/bin/env python3
"""Schedules, zones and ranges that go by chance, and what `list` is to print of them: intervals.py FOLDER FIRST COUNT

This is a plain reading of docs/SPECIFICATION.md ("Schedules", "Limits") and of docs/FORMATS.md ("Moments", "What the program
prints", "Order of looking"), by somebody who hasn't seen the code. A civil minute that a schedule has becomes an instant by the
changes of its zone, which are read here from the POSIX rule or the zone file; nothing is looked up.

For each seed from FIRST on, COUNT of them, a folder of its name has graph.json, `line`, the words behind `list` each on a line,
and `wanted`, what is printed: to standard output where the status is 0, else to standard error. The file `cases` has a line for
each seed: the seed and the exit status. A seed that takes a file of the tz database has none where the machine has no such file.
"""
import bisect
import calendar
import collections
import datetime
import itertools
import json
import pathlib
import random
import re
import struct

from backfills import happens, write_cases

DAY = 86400
EPOCH = datetime.date(1970, 1, 1).toordinal()
FIRST_DAY = datetime.date(1969, 12, 30).toordinal() - EPOCH
LAST_DAY = datetime.date(2208, 12, 31).toordinal() - EPOCH
FIRST_MOMENT = 0
LAST_MOMENT = (datetime.date(2200, 1, 1).toordinal() - EPOCH) * DAY - 1
MOST_RUNS = 4096
SHORTEST_ZONE_FILE = 44
LONGEST_ZONE_FILE = 1048576
# No offset is as long as this, so a civil minute and its instant are never so far apart.
FAR = 2 * DAY

WORDS = {
    **{11: "bad cron", 12: "never fires", 13: "bad zone"},
    **{25: "outside years", 26: "range reversed", 27: "too many runs", 28: "bad moment"},
}


class Refused(Exception):
    """The number of a refusal."""


def day_number(year, month, day):
    """Days since 1970-01-01."""
    return datetime.date(year, month, day).toordinal() - EPOCH


# Schedules.

PRESETS = {
    "@hourly": "0 * * * *",
    "@daily": "0 0 * * *",
    "@weekly": "0 0 * * 0",
    "@monthly": "0 0 1 * *",
    "@quarterly": "0 0 1 */3 *",
    "@yearly": "0 0 1 1 *",
}
MONTHS = {name: number for number, name in enumerate("jan feb mar apr may jun jul aug sep oct nov dec".split(), 1)}
WEEKDAYS = {name: number for number, name in enumerate("sun mon tue wed thu fri sat".split())}

Field = collections.namedtuple("Field", "least greatest names")
FIELDS = [Field(0, 59, {}), Field(0, 23, {}), Field(1, 31, {}), Field(1, 12, MONTHS), Field(0, 7, WEEKDAYS)]


def bounded(number, least, greatest, refusal):
    if not least <= number <= greatest:
        raise Refused(refusal)
    return number


def value_of(text, field):
    """The value of a number or a name of a field."""
    if text.lower() in field.names and text.isascii():
        return field.names[text.lower()]
    if not re.fullmatch("[0-9]{1,2}", text):
        raise Refused(11)
    return bounded(int(text), field.least, field.greatest, 11)


def values_of(item, field):
    """The values of an item: `*`, `a`, `a-b`, `*/n` or `a-b/n`."""
    span, slash, step = item.partition("/")
    if slash and not re.fullmatch("[0-9]{1,2}", step):
        raise Refused(11)
    step = bounded(int(step), 1, 59, 11) if slash else 1
    if span == "*":
        return range(field.least, field.greatest + 1, step)
    first, dash, last = span.partition("-")
    if slash and not dash:
        raise Refused(11)
    first = value_of(first, field)
    return range(first, bounded(value_of(last, field) if dash else first, first, field.greatest, 11) + 1, step)


class Schedule:
    """What a schedule matches: minutes of an hour, hours, and days."""

    def __init__(self, text):
        texts = re.split("[ \t]+", PRESETS.get(text, text).strip(" \t"))
        if len(texts) != len(FIELDS):
            raise Refused(11)
        values = [{value for item in text.split(",") for value in values_of(item, field)} for text, field in zip(texts, FIELDS)]
        self.minutes, self.hours, self.days, self.months, weekdays = values
        self.weekdays = {value % 7 for value in weekdays}
        self.either = texts[2] != "*" and texts[4] != "*"
        if not any(map(self.has_day, range(FIRST_DAY, LAST_DAY + 1))):
            raise Refused(12)

    def has_day(self, number):
        date = datetime.date.fromordinal(EPOCH + number)
        matches = [date.day in self.days, date.isoweekday() % 7 in self.weekdays]
        return date.month in self.months and (any(matches) if self.either else all(matches))

    def civil_minutes(self, number):
        """The civil minutes of a day, in seconds since 1970 on the clock of the zone."""
        return [number * DAY + hour * 3600 + minute * 60 for hour in self.hours for minute in self.minutes] if self.has_day(number) else []


# Zones.


class Zone:
    """A clock: an offset in seconds, and the changes of it, each an instant and the offset from then on."""

    def __init__(self, offset, changes=()):
        self.begins = [float("-inf"), *(instant for instant, _ in changes)]
        self.offsets = [offset, *(offset for _, offset in changes)]

    def near(self, civil):
        """The offsets that may be shown at a civil moment, each with its begin and end."""
        first = bisect.bisect(self.begins, civil - FAR) - 1
        last = bisect.bisect(self.begins, civil + FAR)
        ends = [*self.begins[first + 1:last], float("inf")]
        return list(zip(self.begins[first:last], ends, self.offsets[first:last]))

    def shown(self, civil):
        """The instants at which the clock shows a civil moment."""
        return [civil - offset for begin, end, offset in self.near(civil) if begin <= civil - offset < end]

    def instant(self, civil):
        """The earlier instant that shows it. A moment that the clock jumps over is moved forward by the jump."""
        instants = self.shown(civil)
        if instants:
            return min(instants)
        for (_, _, before), (change, _, after) in itertools.pairwise(self.near(civil)):
            if change + before <= civil < change + after:
                return civil + (after - before) - after
        raise AssertionError(f"{civil} is neither shown nor jumped over")


NAME = r"(?:[A-Za-z]{3,15}|<[A-Za-z0-9+-]{3,15}>)"
MINUTES = r"(?::[0-9]{2}(?::[0-9]{2})?)?"
OFFSET = rf"[+-]?[0-9]{{1,2}}{MINUTES}"
CHANGE = rf"[+-]?[0-9]{{1,3}}{MINUTES}"
RULE_DAY = r"M[0-9]{1,2}\.[0-9]\.[0-9]|J?[0-9]{1,3}"
RULE = re.compile(rf"{NAME}({OFFSET})(?:{NAME}({OFFSET})?,({RULE_DAY})(?:/({CHANGE}))?,({RULE_DAY})(?:/({CHANGE}))?)?")


def seconds_of(text, most_hours):
    """The seconds of `[+-]hh[:mm[:ss]]`."""
    hours, minutes, seconds = [*map(int, text.lstrip("+-").split(":")), 0, 0][:3]
    bounded(hours, 0, most_hours, 13)
    bounded(max(minutes, seconds), 0, 59, 13)
    return (hours * 3600 + minutes * 60 + seconds) * (-1 if text[0] == "-" else 1)


def rule_day(text):
    """The day of a rule as a function of the year."""
    if text[0] == "M":
        month, week, weekday = map(int, text[1:].split("."))
        for number, least, greatest in ((month, 1, 12), (week, 1, 5), (weekday, 0, 6)):
            bounded(number, least, greatest, 13)
        return lambda year: [
            day_number(year, month, day)
            for day in range(1, calendar.monthrange(year, month)[1] + 1)
            if datetime.date(year, month, day).isoweekday() % 7 == weekday
        ][:week][-1]
    if text[0] == "J":
        number = bounded(int(text[1:]), 1, 365, 13)
        return lambda year: day_number(year, 1, 1) + number - 1 + (calendar.isleap(year) and number >= 60)
    number = bounded(int(text), 0, 365, 13)
    return lambda year: day_number(year, 1, 1) + number


def rule_zone(text):
    """The clock of a POSIX rule, whose offsets are those to the west. A year's end of daylight saving time comes before a start
    at the same instant, so one that lasts for ever has no gaps."""
    match = RULE.fullmatch(text)
    if match is None:
        raise Refused(13)
    standard, daylight, start, start_time, end, end_time = match.groups()
    standard = -seconds_of(standard, 24)
    if start is None:
        return Zone(standard)
    daylight = -seconds_of(daylight, 24) if daylight else standard + 3600
    start, end = rule_day(start), rule_day(end)
    start_time, end_time = (seconds_of(time or "2", 167) for time in (start_time, end_time))
    changes = []
    for year in range(1968, 2211):
        changes.append((start(year) * DAY + start_time - standard, 1, daylight))
        changes.append((end(year) * DAY + end_time - daylight, 0, standard))
    return Zone(standard, [(instant, offset) for instant, _, offset in sorted(changes)])


def file_zone(content):
    """The clock of a TZif file (RFC 8536): its changes, and behind the last those of the rule at its end. Before the first its
    first type holds."""
    if content is None or not SHORTEST_ZONE_FILE <= len(content) <= LONGEST_ZONE_FILE or content[:4] != b"TZif":
        raise Refused(13)
    version, place, size = content[4], 0, 4
    if version > 0:
        universal, standard, leaps, times, types, letters = struct.unpack_from(">6l", content, 20)
        place, size = 44 + times * 5 + types * 6 + letters + leaps * 8 + standard + universal, 8
    universal, standard, leaps, times, types, letters = struct.unpack_from(">6l", content, place + 20)
    place += 44
    instants = struct.unpack_from(f">{times}{'q' if size == 8 else 'l'}", content, place)
    kinds = content[place + times * size:place + times * (size + 1)]
    place += times * (size + 1)
    offsets = [struct.unpack_from(">l", content, place + 6 * kind)[0] for kind in range(types)]
    changes = [(instant, offsets[kind]) for instant, kind in zip(instants, kinds)]
    footer = content[place + types * 6 + letters + leaps * (size + 4) + standard + universal:].decode().strip("\n") if version > 0 else ""
    if not footer:
        return Zone(offsets[0], changes)
    rule = rule_zone(footer)
    if not changes:
        return rule
    behind = [(instant, offset) for instant, offset in zip(rule.begins, rule.offsets) if instant > changes[-1][0]]
    return Zone(offsets[0], changes + behind)


def zone_of(text, content):
    """The zone of a graph, beside a zone file or None."""
    if text == "UTC":
        return Zone(0)
    if text == "file":
        return file_zone(content)
    if re.fullmatch("[+-]([01][0-9]|2[0-3]):[0-5][0-9]", text):
        return Zone(seconds_of(text, 23))
    return rule_zone(text)


# Moments and ranges.


def moment_of(text):
    """Seconds since 1970. Of the year 0, which Python lacks, it is a moment of the year 1."""
    match = re.fullmatch("([0-9]{4})-([0-9]{2})-([0-9]{2})(?:T([0-9]{2}):([0-9]{2}):([0-9]{2})Z)?", text)
    year, month, day, hour, minute, second = (int(digits or 0) for digits in match.groups()) if match else [0] * 6
    exists = 1 <= month <= 12 and 1 <= day <= 29 - (month == 2 and not calendar.isleap(year)) + (month != 2) * 2
    exists = exists and not (month in (4, 6, 9, 11) and day == 31)
    if not exists or hour > 23 or minute > 59 or second > 59:
        raise Refused(28)
    return day_number(max(year, 1), month, min(day, 28) if year == 0 else day) * DAY + hour * 3600 + minute * 60 + second


def spelled(moment):
    return f"{datetime.datetime(1970, 1, 1) + datetime.timedelta(seconds=moment):%Y-%m-%dT%H:%M:%SZ}"


def fires(schedule, zone, first):
    """The fires from a moment on, in rising order. One is known once no later day can come before it."""
    waiting = set()
    for day in range(max(FIRST_DAY, (first - FAR) // DAY), LAST_DAY + 1):
        waiting.update(map(zone.instant, schedule.civil_minutes(day)))
        known = sorted(fire for fire in waiting if fire < day * DAY - FAR)
        waiting.difference_update(known)
        yield from (fire for fire in known if fire >= first)
    yield from sorted(fire for fire in waiting if fire >= first)


def intervals(schedule, zone, first, last):
    """The data intervals that start between two moments."""
    if not FIRST_MOMENT <= first <= LAST_MOMENT or not FIRST_MOMENT <= last <= LAST_MOMENT:
        raise Refused(25)
    if first > last:
        raise Refused(26)
    pairs = itertools.takewhile(lambda pair: pair[0] <= last, itertools.pairwise(fires(schedule, zone, first)))
    pairs = list(itertools.islice(pairs, MOST_RUNS + 1))
    if len(pairs) > MOST_RUNS:
        raise Refused(27)
    return pairs


# Each file is its path, and its content or None where it can't be read. Without a zone file that is None.
Case = collections.namedtuple("Case", "schedule zone first last graph_file zone_file")


def answer(case):
    """The exit status of `list`, and what it prints."""
    try:
        first, last = moment_of(case.first), moment_of(case.last)
        for path, content in filter(None, [case.graph_file, case.zone_file]):
            if content is None:
                return 3, f"fault: cannot read {path}\n"
        schedule = Schedule(case.schedule)
        zone = zone_of("UTC" if case.zone is None else case.zone, case.zone_file and case.zone_file[1])
        return 0, "".join(f"{spelled(start)} {spelled(end)}\n" for start, end in intervals(schedule, zone, first, last))
    except Refused as refused:
        return 2, f"refused {refused.args[0]} {WORDS[refused.args[0]]}\n"


# What follows goes by chance: schedules.

NEVER = ["0 0 30 2 *", "* * 31 2,4,6,9,11 *", "59 23 30-31 feb *", "0 12 31 */2,9 *", "0 0 31 Nov *", "@never", "0 0 30,31 2-2/7 *"]
SELDOM = ["0 0 29 2 *", "30 2 29 feb *", "59 23 31 12 *", "0 0 1 1 *", "0 0 29 2 mon", "0 0 31 */1 *", "0 0 29-31 2 *", "0 0 1 1 */1"]
NEAR_CHANGES = [
    *["30 2 * * *", "0 2 * * *", "0 3 * * *", "15,45 1-3 * * *", "*/20 0-4 * * *", "30 2,3 * * *", "59 1 * * *", "0 0 * * *", "* 2 * * *"],
    *["30 * * * *", "*/30 * * * *", "30 1 * * sun", "0 1-3 * * 0,6", "45 23 * * *", "1 0 * * *", "5-55/25 2 * * *", "0 */6 * * *"],
    *["30 0,23 * * *", "0 12 * * *", "30 10,22 * * *", "59 23 * * *", "0,59 * * * *"],
]
BAD_ITEMS = [
    *["", "60", "24", "32", "13", "8", "0", "000", "001", "100", "3-1", "1-60", "1-24", "*/0", "*/60", "*/100", "*/", "/5", "5/15"],
    *["0/1", "-1", "+1", "1-", "-", "1--2", "1-2-3", "1-2/", "1-2/0", "1-2/3/4", "*-5", "**", "*5", "5*", "?", "L", "5#2", "5W", "H"],
    *["1.5", "x", "mond", "january", "mo", "sat-sun", "dec-jan", "*/mon", "mon/2", "1-5/tue", "feb", "fri", "ſun", "１", "1,", ",1"],
    *["1,,2", "*,60", "a"],
]
BAD_SCHEDULES = [
    *["", " ", "\t", "*", "* * * *", "* * * * * *", "0 0 * * * 2024", "@", "@Daily", "@DAILY", "@daily ", " @daily", "@annually"],
    *["@midnight", "@once", "@continuous", "daily", "@hourly @daily", "*\n* * * *", "* * * * *\n", "* * * *\u00a0*", "*,* * * *"],
    *["* * * * *;", "*****"],
]


def number_text(chance, field, number):
    """A value in one of its spellings."""
    names = [name for name, value in field.names.items() if value == number]
    if names and happens(chance, 50):
        return chance.choice([names[0], names[0].title(), names[0].upper(), names[0][0] + names[0][1:].upper()])
    return f"{number:02}" if happens(chance, 15) else f"{number}"


def item_text(chance, field):
    form = chance.choice(["a", "a", "a", "a-b", "a-b", "*/n", "a-b/n", "*"] if happens(chance, 20) else ["a", "a", "a-b", "*/n", "a-b/n"])
    first, last = sorted(chance.randint(field.least, field.greatest) for _ in "ab")
    span = f"{number_text(chance, field, first)}-{number_text(chance, field, last)}"
    step = chance.choice([1, 2, 3, 5, 7, 15, 20, 59])
    return {"a": number_text(chance, field, first), "a-b": span, "*/n": f"*/{step}", "a-b/n": f"{span}/{step}", "*": "*"}[form]


def schedule_by_fields(chance, bad):
    """Five fields, whose items are good but for one where the schedule is to be bad."""
    stars = chance.choice([20, 50, 80])
    counts = [0 if happens(chance, stars) else chance.choice([1, 1, 2, 3]) for _ in FIELDS]
    items = [[item_text(chance, field) for _ in range(count)] or ["*"] for count, field in zip(counts, FIELDS)]
    if items[1] == ["*"] and happens(chance, 70):
        items[1] = [item_text(chance, FIELDS[1])]
    if bad:
        chance.choice(items).insert(0, chance.choice(BAD_ITEMS))
    blanks = [" ", " ", " ", " ", "\t", "  ", " \t "] if happens(chance, 20) else [" "]
    text = "".join(chance.choice(blanks) + ",".join(field) for field in items)
    return text if happens(chance, 10) else text.strip() + (" \t" if happens(chance, 5) else "")


def schedule_text(chance):
    form = chance.random() * 100
    if form < 8:
        return chance.choice(list(PRESETS))
    if form < 45:
        return chance.choice(NEAR_CHANGES)
    if form < 50:
        return chance.choice(SELDOM)
    if form < 52:
        return chance.choice(NEVER)
    if form < 54:
        return chance.choice(BAD_SCHEDULES)
    return schedule_by_fields(chance, form > 95)


# Zones by chance.

TZ_DATABASE = pathlib.Path("/usr/share/zoneinfo")
TZ_NAMES = (
    "Europe/Berlin Europe/Dublin Europe/Lisbon Europe/London Europe/Moscow Europe/Volgograd America/New_York America/St_Johns America/Nuuk "
    "America/Havana America/Caracas America/Asuncion America/Sao_Paulo America/Santiago America/Juneau America/Scoresbysund "
    "America/Barbados Africa/Casablanca Africa/El_Aaiun Africa/Cairo Africa/Monrovia Africa/Juba Asia/Gaza Asia/Tehran "
    "Asia/Kathmandu Asia/Pyongyang "
    "Asia/Amman Asia/Dhaka Asia/Manila Asia/Hong_Kong Australia/Sydney Australia/Lord_Howe Antarctica/Troll Antarctica/Casey "
    "Antarctica/Vostok Pacific/Apia Pacific/Kwajalein Pacific/Chatham Pacific/Kanton Pacific/Fakaofo Pacific/Easter UTC GMT EST5EDT"
).split()
RULES = [
    *["CET-1CEST,M3.5.0,M10.5.0/3", "EST5EDT,M3.2.0,M11.1.0", "AEST-10AEDT,M10.1.0,M4.1.0/3", "<+1030>-10:30<+11>-11,M10.1.0,M4.1.0"],
    *["IST-1GMT0,M10.5.0,M3.5.0/1", "<-02>2<-01>,M3.5.0/-1,M10.5.0/0", "EET-2EEST,M3.4.4/50,M10.4.4/50", "EET-2EEST,M4.5.5/0,M10.5.4/24"],
    *["NST3:30NDT,M3.2.0,M11.1.0", "CST5CDT,M3.2.0/0,M11.1.0/1", "<+1245>-12:45<+1345>,M9.5.0/2:45,M4.1.0/3:45", "UTC0", "<-0044>0:44:30"],
    *["<+00>0<+02>-2,M3.5.0/1,M10.5.0/3", "<-04>4<-03>,M9.1.6/24,M4.1.6/24", "XXX3EDT4,0/0,J365/23", "AAA-24:59:59", "AAA24:59:59", "utc0"],
    *["Abcdefghijklmno5", "<+23456789012345>5", "EET-2EEST,M3.4.4/050,M10.4.4/167"],
]
BAD_ZONES = [
    *["", "utc", "Utc", "Z", "UTC ", " UTC", "GMT", "Europe/Paris", "local", "File", "file ", "+1:00", "01:00", "+0100", "+24:00"],
    *["+00:60", "+01:00:00", "+01-00", "+ 1:00", "++1:00", "+01", "−01:00", "EST", "EST5EDT", "EST5EDT4", "ES5", "5", "EST25", "EST5:60"],
    *["EST5:00:60", "EST5EDT,M3.2.0", "EST5EDT,M13.1.0,M11.1.0", "EST5EDT,M0.1.0,M11.1.0", "EST5EDT,M3.6.0,M11.1.0"],
    *["EST5EDT,M3.0.0,M11.1.0", "EST5EDT,M3.1.7,M11.1.0", "EST5EDT,J0,J100", "EST5EDT,J1,J366", "EST5EDT,1,366"],
    *["EST5EDT,M3.2.0/168,M11.1.0", "EST5EDT,M3.2.0,M11.1.0,", "EST5EDT,M3.2.0/,M11.1.0", "EST5EDT,M3.2,M11.1.0"],
    *["EST5EDT, M3.2.0,M11.1.0", "EST5EDT M3.2.0,M11.1.0", ":EST5", "<EST5", "<E>5", "EST5,", "EST5EDT,M3.2.0,M11.1.0 "],
    *["EST5EDT,M3.2.0,M11.1.0/2x", "E5T5", "UTC024", "UTC-005", "<+03>003", "EST5EDT004,M3.2.0,M11.1.0", "Abcdefghijklmnop5", "<+234567890123456>5"],
    *["EET-2EEST,M3.4.4/0050,M10.4.4/50"],
]


def clock_text(seconds):
    """Hours, and minutes and seconds where there are some."""
    hours, minutes, rest = abs(seconds) // 3600, abs(seconds) // 60 % 60, abs(seconds) % 60
    return f"{'-' * (seconds < 0)}{hours}" + (f":{minutes:02}" if minutes or rest else "") + (f":{rest:02}" if rest else "")


def rule_day_text(chance, number):
    """A day of a rule, at this day of the year or some days from it."""
    form = chance.choice("MMJn")
    if form == "M":
        month = (datetime.date(2023, 1, 1) + datetime.timedelta(days=number)).month
        return f"M{month}.{chance.randint(1, 5)}.{chance.randint(0, 6)}"
    return f"J{number + 1}" if form == "J" else f"{number}"


def rule_time_text(chance):
    times = [0, 3600, 7200, 10800, 9000, 60, 7199, 86400, 90000, -3600, -9000, 180000, 601200, -601200, 7230]
    return f"/{clock_text(chance.choice(times))}" if happens(chance, 60) else ""


def some_offset(chance):
    return chance.randint(-12, 14) * 3600 + chance.choice([0, 0, 0, 0, 1800, 2700, 1234])


def rule_text(chance):
    """A rule whose start and end lie months apart."""
    offset = some_offset(chance)
    jump = chance.choice([None, None, 3600, 1800, 7200, 1200, -3600, 30, 0, 5400, 28800])
    days = [rule_day_text(chance, chance.randint(*chance.choice(around))) for around in ([(40, 150)], [(210, 320)])]
    chance.shuffle(days)
    start, end = days
    names = chance.choice([("EST", "EDT"), ("<+03>", "<-0130>"), ("abc", "LONGNAME")])
    daylight = "" if jump is None else clock_text(-offset - jump)
    return f"{names[0]}{clock_text(-offset)}{names[1]}{daylight},{start}{rule_time_text(chance)},{end}{rule_time_text(chance)}"


def block(instants, offsets, code):
    """The header's numbers and the data of a zone file, in which each change has a type of its own behind the first."""
    types = b"".join(struct.pack(">lBB", offset, 0, 0) for offset in offsets)
    numbers = struct.pack(">6l", 0, 0, 0, len(instants), len(offsets), 4)
    return numbers + struct.pack(f">{len(instants)}{code}", *instants) + bytes(range(1, len(offsets))) + types + b"AAA\0"


def zone_file_content(chance):
    """A zone file with changes that no rule has: of any length, at any second, days or years apart."""
    instant, instants = chance.randint(-3, 60) * 366 * DAY, []
    for _ in range(chance.randint(0, 6)):
        instant += chance.randint(4 * DAY, chance.choice([9, 99, 9999]) * DAY) // chance.choice([1, 1800, 3600])
        instants.append(instant - instant % chance.choice([1, 60, 900, 3600]))
    instants = [each for each, before in zip(instants, [-10**10, *instants]) if each - before > 3 * DAY and each < 2**31]
    offsets = [chance.choice([-12, -1, 0, 1, 12]) * 3600 + some_offset(chance) // 2 for _ in range(len(instants) + 1)]
    short = block(instants, offsets, "l")
    if happens(chance, 20):
        return b"TZif" + bytes(16) + short
    footer = chance.choice(["", f"AAA{clock_text(-offsets[-1])}"])
    head = b"TZif" + chance.choice([b"2", b"3"]) + bytes(15)
    return head + short + head + block(instants, offsets, "q") + f"\n{footer}\n".encode()


def bad_zone_file(chance):
    good = zone_file_content(chance)
    too_long = good.ljust(LONGEST_ZONE_FILE + 1, b"\n")
    return chance.choice([b"", b"TZif", good[:43], b"TZIF" + good[4:], b"CET-1CEST,M3.5.0,M10.5.0/3\n", too_long])


def zone_by_chance(chance, folder):
    """The text of a zone, and the zone file beside it or None."""
    form = chance.random() * 100
    if form < 8:
        return chance.choice([None, "UTC"]), None
    if form < 18:
        return f"{chance.choice('+-')}{chance.choice([0, 1, 5, 9, 12, 23]):02}:{chance.choice([0, 30, 45, 59]):02}", None
    if form < 35:
        return chance.choice(RULES), None
    if form < 60:
        return rule_text(chance), None
    if form < 78:
        path = TZ_DATABASE / chance.choice(TZ_NAMES)
        return "file", (path, path.read_bytes() if path.exists() else None)
    if form < 92:
        return "file", (folder / "zone", zone_file_content(chance))
    if form < 95:
        return chance.choice(["file", "UTC", "+01:00"]), (folder / "zone", bad_zone_file(chance))
    if form < 96:
        return chance.choice(["file", "UTC", "utc"]), chance.choice([None, (folder / "missing", None)])
    return chance.choice(BAD_ZONES), None


# Ranges by chance.

BAD_MOMENTS = [
    *["2024-02-30", "2023-02-29", "2100-02-29", "2024-13-01", "2024-00-10", "2024-01-00", "2024-01-32", "2024-04-31", "2024-1-01"],
    *["24-01-01", "2024-01-01T24:00:00Z", "2024-01-01T00:60:00Z", "2024-01-01T23:59:60Z", "2024-01-01t00:00:00Z", "2024-01-01T00:00:00z"],
    *["2024-01-01Z", "2024-01-01 00:00:00Z", "2024-01-01T00:00:00", "2024-01-01T00:00Z", "2024-01-01T00:00:00+00:00"],
    *["2024-01-01T00:00:00.0Z", " 2024-01-01", "2024-01-01 ", "+2024-01-01", "-024-01-01", "12024-01-01", "２024-01-01", "2024/01/01"],
    *["20240101", "today", "", "2024-01", "2024-001", "0000-02-30", "0000-00-00", "9999-12-32", "2024-01-01T0:00:00Z"],
    *["2024-01-01T00:00:0Z", "2024-01-01T00:00:00ZZ", "1900-02-29"],
]
OUTSIDE_MOMENTS = [
    *["0000-01-01", "0000-02-29", "0000-12-31T23:59:59Z", "0001-01-01", "1969-12-31T23:59:59Z", "1969-12-31", "2200-01-01"],
    *["2200-01-01T00:00:00Z", "2208-12-31", "9999-12-31", "9999-12-31T23:59:59Z", "1900-01-01"],
]


def pivot_of(chance, zone):
    """A moment of the range: often near a change of the clock, sometimes at an end of the years."""
    changes = [change for change in zone.begins if FIRST_MOMENT <= change <= LAST_MOMENT] if zone else []
    if changes and happens(chance, 75):
        return chance.choice(changes) + chance.choice([0, 0, -1, 1]) * chance.choice([0, 1, 3600, DAY])
    if happens(chance, 25):
        return chance.choice([FIRST_MOMENT, LAST_MOMENT])
    return chance.randint(FIRST_MOMENT, LAST_MOMENT)


def span_of(chance, schedule):
    """Seconds in which there are some fires, but seldom hundreds."""
    if happens(chance, 3):
        return chance.choice([40, 4000, 80000]) * DAY
    each_day = len(schedule.hours) * len(schedule.minutes) if schedule else 1
    if each_day == 1 and happens(chance, 40):
        return chance.choice([28, 100, 400]) * DAY * (1 if schedule and (schedule.either or len(schedule.months) == 12) else 10)
    return chance.choice([3600, 4 * 3600, DAY, 3 * DAY]) if each_day > 24 else chance.choice([3600, DAY, 2 * DAY, 5 * DAY])


def within_years(moment):
    return min(max(moment, FIRST_MOMENT), LAST_MOMENT)


def at_the_limit(chance, schedule, zone, first):
    """A range of as many data intervals as there may be, or of one more."""
    starts = [fire for fire in itertools.islice(fires(schedule, zone, first), MOST_RUNS + 1)]
    last = chance.choice([starts[-2], starts[-1] - 1, starts[-1]])
    return first, last


def range_of(chance, schedule, zone):
    """The two moments. Some are those of a fire, or a second from it."""
    span = span_of(chance, schedule)
    first = within_years(pivot_of(chance, zone) - int(span * chance.choice([0, 1, chance.random()])))
    if schedule and zone and len(schedule.hours) * len(schedule.minutes) > 300 and happens(chance, 10) and first < LAST_MOMENT - 30 * DAY:
        return at_the_limit(chance, schedule, zone, first)
    last = within_years(first + span)
    if schedule and zone and happens(chance, 40):
        near = list(itertools.islice(fires(schedule, zone, first), chance.choice([1, 2, 5, 20])))
        close = [within_years(chance.choice(near) + chance.choice([-1, 0, 0, 1])) for _ in "12"]
        first, last = sorted(each if happens(chance, 40) else other for each, other in zip((first, last), close))
    if happens(chance, 5):
        return first, first
    return (last, first) if happens(chance, 3) else (first, last)


def moment_text(chance, moment):
    if happens(chance, 1.5):
        return chance.choice(BAD_MOMENTS)
    if happens(chance, 1.5):
        return chance.choice(OUTSIDE_MOMENTS)
    if happens(chance, 15):
        moment -= moment % DAY
    return spelled(moment)[:10] if moment % DAY == 0 and happens(chance, 60) else spelled(moment)


# Cases.


def unless_refused(read, *arguments):
    try:
        return read(*arguments)
    except Refused:
        return None


def case_of(seed, folder):
    chance = random.Random(seed)
    schedule = schedule_text(chance)
    zone, zone_file = zone_by_chance(chance, folder)
    content = zone_file and zone_file[1]
    moments = range_of(chance, unless_refused(Schedule, schedule), unless_refused(zone_of, zone or "UTC", content))
    first, last = (moment_text(chance, moment) for moment in moments)
    graph = {"dag_id": "d", "schedule": schedule, "tasks": []} | ({} if zone is None else {"zone": zone})
    graph_file = (folder / "no graph", None) if happens(chance, 0.5) else (folder / "graph.json", json.dumps(graph).encode())
    return Case(schedule, zone, first, last, graph_file, zone_file), graph


def write_case(folder, seed):
    """Writes the files of a seed, and answers its line."""
    case, graph = case_of(seed, folder / f"{seed}")
    if case.zone_file and case.zone_file[1] is None and TZ_DATABASE in case.zone_file[0].parents:
        return ""
    (folder / f"{seed}").mkdir()
    status, wanted = answer(case)
    words = [f"{case.graph_file[0]}", f"--from={case.first}", f"--to={case.last}"]
    if case.zone_file:
        words.append(f"--zone-file={case.zone_file[0]}")
        if case.zone_file[0].parent == folder / f"{seed}" and case.zone_file[1] is not None:
            case.zone_file[0].write_bytes(case.zone_file[1])
    files = {"graph.json": json.dumps(graph) + "\n", "line": "".join(f"{word}\n" for word in words), "wanted": wanted}
    for name, text in files.items():
        (folder / f"{seed}" / name).write_text(text)
    return f"{seed} {status}\n"


if __name__ == "__main__":
    write_cases(write_case, __doc__)
