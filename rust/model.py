#!/usr/bin/env python3
"""The console's calls by the rules (docs/RULES.md) and the TC39 Temporal proposal: request lines in, answer lines out.

A computation of its own, which shares nothing with the crates and nothing with the Rust."""
import re
import sys
from bisect import bisect_right

I32, I64, U64 = (-2**31, 2**31 - 1), (-2**63, 2**63 - 1), (0, 2**64 - 1)
U8, U16 = (0, 255), (0, 65535)
UNIT, MODE, BIT, ROOM = (0, 9), (0, 8), (0, 1), (0, 64)
RANGE = 100_000_001            # balanced day counts: at most this in size
BOUND = 2**53 - 1              # fields of a time to be balanced
NSD = 86_400_000_000_000
YEAR, MONTH, WEEK, DAY, HOUR, MINUTE = range(6)
LENGTH = (0, 0, 0, NSD, 3_600_000_000_000, 60_000_000_000, 1_000_000_000, 1_000_000, 1_000, 1)
WHOLE = (0, 0, 0, 1, 24, 60, 60, 1000, 1000, 1000)

BEFORE = (0, 31, 59, 90, 120, 151, 181, 212, 243, 273, 304, 334, 365)
BEFORE_LEAP = (0, 31, 60, 91, 121, 152, 182, 213, 244, 274, 305, 335, 366)


class Refusal(Exception):
    def __init__(self, number):
        self.number = number


R = [Refusal(n) for n in range(11)]


# ---- module 1
def leap(y):
    return y % 4 == 0 and (y % 100 != 0 or y % 400 == 0)


def before(y):
    return BEFORE_LEAP if leap(y) else BEFORE


def mlen(y, m):
    b = before(y)
    return b[m] - b[m - 1]


def year_day(y):
    return 365 * (y - 1970) + (y - 1969) // 4 - (y - 1901) // 100 + (y - 1601) // 400


def balance_ym(y, m):
    return y + (m - 1) // 12, (m - 1) % 12 + 1


def day_of(y, m, d):
    y, m = balance_ym(y, m)
    return year_day(y) + before(y)[m - 1] + d - 1


def date_of(n):
    y = 1970 + n * 400 // 146097
    while year_day(y) > n:
        y -= 1
    while year_day(y + 1) <= n:
        y += 1
    n -= year_day(y)
    b = before(y)
    m = bisect_right(b, n)
    return y, m, n - b[m - 1] + 1


# ---- checks
def valid_date(y, m, d):
    return 1 <= m <= 12 and 1 <= d <= mlen(y, m)


def valid_time(h, mi, s, ms, us, ns):
    return h <= 23 and mi <= 59 and s <= 59 and ms <= 999 and us <= 999 and ns <= 999


def limits(y, m, d):
    return -RANGE <= day_of(y, m, d) <= RANGE - 1


def dt_limits(y, m, d, h, mi, s, ms, us, ns):
    t = day_of(y, m, d) * NSD + nanos(h, mi, s, ms, us, ns)
    return -RANGE * NSD < t < RANGE * NSD


def date_record(y, m, d):
    if not valid_date(y, m, d):
        raise R[1]
    if not limits(y, m, d):
        raise R[2]


def dt_record(a):
    if not valid_date(*a[:3]) or not valid_time(*a[3:9]):
        raise R[1]
    if not dt_limits(*a[:9]):
        raise R[3]


def valid_duration(y, mo, w, d):
    if (y > 0 or mo > 0 or w > 0 or d > 0) and (y < 0 or mo < 0 or w < 0 or d < 0):
        return False
    return max(abs(y), abs(mo), abs(w)) < 2**32 and abs(d) * 86400 < 2**53


def duration_record(y, mo, w, d):
    if not valid_duration(y, mo, w, d):
        raise R[8]


def date_count(n):
    if abs(n) > RANGE:
        raise R[4]
    return date_of(n)


# ---- module 1 and 2 calls
def month_length(y, m):
    if not 1 <= m <= 12:
        raise R[1]
    return (mlen(y, m),)


def date_to_day(y, m, d):
    if not valid_date(y, m, d):
        raise R[1]
    n = day_of(y, m, d)
    if abs(n) > RANGE:
        raise R[4]
    return (n,)


def day_to_date(n):
    return date_count(n)


def clamp_ym(y, m):
    y, m = balance_ym(y, m)
    return min(max(y, I32[0]), I32[1]), m


def regulate(y, m, d, overflow):
    if overflow == 0:
        m = min(max(m, 1), 12)
        return y, m, min(max(d, 1), mlen(y, m))
    if not valid_date(y, m, d):
        raise R[1]
    return y, m, d


def make_date(y, m, d, overflow):
    date = regulate(y, m, d, overflow)
    if not limits(*date):
        raise R[2]
    return date


def date_limits(y, m, d):
    date_record(y, m, d)
    return ()


def balance_date(y, m, d):
    return date_count(day_of(y, m, 1) + d - 1)


# ---- times
def nanos(h, mi, s, ms, us, ns):
    return ((((h * 60 + mi) * 60 + s) * 1000 + ms) * 1000 + us) * 1000 + ns


def fields(t):
    t, ns = divmod(t, 1000)
    t, us = divmod(t, 1000)
    t, ms = divmod(t, 1000)
    t, s = divmod(t, 60)
    h, mi = divmod(t, 60)
    return h, mi, s, ms, us, ns


def balanced_time(t):
    carry, t = divmod(t, NSD)
    return (carry,) + fields(t)


def regulate_time(h, mi, s, ms, us, ns, overflow):
    if overflow == 0:
        return min(h, 23), min(mi, 59), min(s, 59), min(ms, 999), min(us, 999), min(ns, 999)
    if not valid_time(h, mi, s, ms, us, ns):
        raise R[1]
    return h, mi, s, ms, us, ns


def bound(a):
    for v in a:
        if abs(v) > BOUND:
            raise R[7]


def balance_time(*a):
    bound(a)
    return balanced_time(nanos(*a))


def split(t):
    s, n = divmod(abs(t), 1_000_000_000)
    return (-s, -n) if t < 0 else (s, n)


def time_difference(*a):
    if not valid_time(*a[:6]) or not valid_time(*a[6:]):
        raise R[1]
    return split(nanos(*a[6:]) - nanos(*a[:6]))


# ---- rounding: rules by mode, for positive and negative quantities
UP, ZERO, HUP, HZERO, HEVEN = 'up', 'zero', 'half-up', 'half-zero', 'half-even'
RULES = ((UP, ZERO), (ZERO, UP), (UP, UP), (ZERO, ZERO), (HUP, HZERO), (HZERO, HUP), (HUP, HUP), (HZERO, HZERO),
         (HEVEN, HEVEN))


def choose(x, step, rule):
    """floor or next whole number of x / step, by the rule"""
    low, rest = divmod(x, step)
    if rest == 0 or rule is ZERO:
        return low
    if rule is UP:
        return low + 1
    if 2 * rest != step:
        return low + (2 * rest > step)
    if rule is HUP:
        return low + 1
    if rule is HZERO:
        return low
    return low + low % 2


def exact_round(x, step, mode):
    if x < 0:
        return -choose(-x, step, RULES[mode][1]) * step
    return choose(x, step, RULES[mode][0]) * step


def in64(n):
    if not I64[0] <= n <= I64[1]:
        raise R[7]
    return (n,)


def round_number(x, step, mode):
    if step == 0:
        raise R[6]
    return in64(exact_round(x, step, mode))


def round_number_as_if_positive(x, step, mode):
    if step == 0:
        raise R[6]
    return in64(choose(x, step, RULES[mode][0]) * step)


def check_unit_increment(unit, inc):
    if unit < DAY:
        raise R[5]
    if unit == DAY:
        if inc != 1:
            raise R[6]
    elif inc == 0 or inc >= WHOLE[unit] or WHOLE[unit] % inc:
        raise R[6]


def rounded_time(t, unit, inc, mode):
    n = nanos(*t)
    field = NSD if unit <= HOUR else LENGTH[unit - 1]
    q = n % field
    return balanced_time(n - q + exact_round(q, inc * LENGTH[unit], mode))


def round_time(*a):
    if not valid_time(*a[:6]):
        raise R[1]
    check_unit_increment(a[6], a[7])
    return rounded_time(a[:6], *a[6:])


# ---- durations
def duration_new(*d):
    duration_record(*d)
    return d


def duration_sign(*d):
    duration_record(*d)
    for v in d:
        if v:
            return (1,) if v > 0 else (-1,)
    return (0,)


def duration_abs(*d):
    duration_record(*d)
    return tuple(map(abs, d))


def duration_negated(*d):
    duration_record(*d)
    return tuple(-v for v in d)


def duration_adjust(y, mo, w, d, days, gw, weeks, gm, months):
    duration_record(y, mo, w, d)
    return duration_new(y, months if gm else mo, weeks if gw else w, days)


# ---- sum and difference
def date_sum(y, m, d, years, months, weeks, days, overflow):
    date_record(y, m, d)
    duration_record(years, months, weeks, days)
    y, m = clamp_ym(y + years, m + months)
    date = make_date(y, m, d, overflow)
    return date_count(day_of(*date) + days + 7 * weeks)


def tries(apart, months):
    """how many comparisons the trial of years and months makes, by the difference of the years and all months found"""
    # Years are tried first under month too: what counts is what was found before folding.
    years, months = divmod(abs(months), 12)
    year_tries = 3 if apart != 0 and years == abs(apart) else 2
    # The last month that is tried is one that passes, and so is none of those found.
    return year_tries + months + 1


def difference(one, two, unit):
    if one == two:
        return 0, 0, 0, 0, 0
    sign = 1 if two > one else -1
    months = count = 0
    if unit <= MONTH:
        # The months between the two months, less one where the day of one lies beyond the day of two.
        months = (two[0] - one[0]) * 12 + two[1] - one[1]
        if (one[2] - two[2]) * sign > 0:
            months -= sign
        # Not below zero in the direction of the sign: within one month there is no whole one.
        if months * sign < 0:
            months = 0
        count = tries(two[0] - one[0], months)
    y, m = balance_ym(one[0], one[1] + months)
    days = day_of(*two) - day_of(y, m, min(one[2], mlen(y, m)))
    if unit == YEAR:
        years, months = divmod(abs(months), 12)
        return sign * years, sign * months, 0, days, count
    if unit == MONTH:
        return 0, months, 0, days, count
    if unit == WEEK:
        weeks, days = divmod(abs(days), 7)
        return 0, 0, sign * weeks, sign * days, count
    return 0, 0, 0, days, count


def date_difference(*a):
    date_record(*a[:3])
    date_record(*a[3:6])
    if a[6] > DAY:
        raise R[5]
    return difference(a[:3], a[3:6], a[6])


# ---- date and time
def datetime_limits(*a):
    dt_record(a)
    return ()


def balance_datetime(*a):
    bound(a[3:])
    t = balanced_time(nanos(*a[3:]))
    return date_count(day_of(a[0], a[1], 1) + a[2] - 1 + t[0]) + t[1:]


def round_datetime(*a):
    dt_record(a)
    check_unit_increment(a[9], a[10])
    t = rounded_time(a[3:9], *a[9:])
    result = date_of(day_of(*a[:3]) + t[0]) + t[1:]
    if not dt_limits(*result):
        raise R[3]
    return result


def datetime_difference(*a):
    dt_record(a[:9])
    dt_record(a[9:18])
    unit = a[18]
    one, two = a[:3], a[9:12]
    time = nanos(*a[12:18]) - nanos(*a[3:9])
    date_sign = (two > one) - (two < one)
    time_sign = (time > 0) - (time < 0)
    if time_sign and time_sign == -date_sign:
        two = date_of(day_of(*two) + time_sign)
        time -= time_sign * NSD
    years, months, weeks, days, count = difference(one, two, min(unit, DAY))
    if unit > DAY:
        time += days * NSD
        days = 0
    return (years, months, weeks, days) + split(time) + (count,)


def datetime_from_instant(day, ns, offset):
    if not (-100_000_000 <= day <= 100_000_000 and 0 <= ns < NSD and (day < 100_000_000 or ns == 0)
            and abs(offset) < NSD):
        raise R[7]
    t = balanced_time(ns + offset)
    return date_of(day + t[0]) + t[1:]


# ---- date text
# Patterns over bytes: only the ten digits of ASCII are digits, and any byte may stand in a text.
DATE_FORM = rb'([0-9]{4}|(?!-000000)[+-][0-9]{6})-([0-9]{2})-([0-9]{2})'
TIME_FORM = rb'([0-9]{2}):([0-9]{2})(?::([0-9]{2})(?:\.([0-9]{1,9}))?)?'
DATE_TEXT, TIME_TEXT = re.compile(DATE_FORM), re.compile(TIME_FORM)
DATETIME_TEXT = re.compile(DATE_FORM + b'T' + TIME_FORM)
LONGEST_TEXT = 64


def taken_apart(form, text):
    """the parts that the form names, each as its digits, or nothing for one that is left out"""
    match = form.fullmatch(text) if len(text) <= LONGEST_TEXT else None
    if match is None:
        raise R[9]
    return match.groups()


def said_time(hour, minute, second, fraction):
    second = int(second or 0)
    nanosecond = int((fraction or b'').ljust(9, b'0'))
    # A clock that counts a leap second shows second 60; it is read as the second before.
    return (int(hour), int(minute), 59 if second == 60 else second,
            nanosecond // 1_000_000, nanosecond // 1000 % 1000, nanosecond % 1000)


def read_date(text):
    date = tuple(map(int, taken_apart(DATE_TEXT, text)))
    date_record(*date)
    return date


def read_time(text):
    time = said_time(*taken_apart(TIME_TEXT, text))
    if not valid_time(*time):
        raise R[1]
    return time


def read_datetime(text):
    parts = taken_apart(DATETIME_TEXT, text)
    record = tuple(map(int, parts[:3])) + said_time(*parts[3:])
    dt_record(record)
    return record


def date_text(y, m, d):
    year = f'{y:04}' if 0 <= y <= 9999 else f'{y:+07}'
    return f'{year}-{m:02}-{d:02}'


def time_text(h, mi, s, ms, us, ns):
    fraction = f'.{ms:03}{us:03}{ns:03}'.rstrip('0').rstrip('.')
    return f'{h:02}:{mi:02}:{s:02}{fraction}'


def into(room, text):
    if len(text) > room:
        raise R[10]
    return (text,)


def write_date(y, m, d, room):
    date_record(y, m, d)
    return into(room, date_text(y, m, d))


def write_time(*a):
    if not valid_time(*a[:6]):
        raise R[1]
    return into(a[6], time_text(*a[:6]))


def write_datetime(*a):
    dt_record(a)
    return into(a[9], date_text(*a[:3]) + 'T' + time_text(*a[3:9]))


DATE, TIME = [I32, U8, U8], [U8, U8, U8, U16, U16, U16]
WIDE, DUR = [I64] * 6, [I64] * 4
CALLS = {
    'month_length': (month_length, [I32, U8]),
    'date_to_day': (date_to_day, DATE),
    'day_to_date': (day_to_date, [I64]),
    'balance_year_month': (clamp_ym, [I32, I32]),
    'regulate_date': (regulate, DATE + [BIT]),
    'make_date': (make_date, DATE + [BIT]),
    'date_limits': (date_limits, DATE),
    'balance_date': (balance_date, [I32, I32, I64]),
    'regulate_time': (regulate_time, TIME + [BIT]),
    'balance_time': (balance_time, WIDE),
    'time_difference': (time_difference, TIME + TIME),
    'round_number': (round_number, [I64, U64, MODE]),
    'round_number_as_if_positive': (round_number_as_if_positive, [I64, U64, MODE]),
    'round_time': (round_time, TIME + [UNIT, U64, MODE]),
    'duration_new': (duration_new, DUR),
    'duration_sign': (duration_sign, DUR),
    'duration_abs': (duration_abs, DUR),
    'duration_negated': (duration_negated, DUR),
    'duration_adjust': (duration_adjust, DUR + [I64, BIT, I64, BIT, I64]),
    'date_sum': (date_sum, DATE + DUR + [BIT]),
    'date_difference': (date_difference, DATE + DATE + [UNIT]),
    'datetime_limits': (datetime_limits, DATE + TIME),
    'balance_datetime': (balance_datetime, [I32, I32, I64] + WIDE),
    'round_datetime': (round_datetime, DATE + TIME + [UNIT, U64, MODE]),
    'datetime_difference': (datetime_difference, DATE + TIME + DATE + TIME + [UNIT]),
    'datetime_from_instant': (datetime_from_instant, [I64] * 3),
    'write_date': (write_date, DATE + [ROOM]),
    'write_time': (write_time, TIME + [ROOM]),
    'write_datetime': (write_datetime, DATE + TIME + [ROOM]),
}
# These take a text: all that follows the one space after the name.
READERS = {b'read_date': read_date, b'read_time': read_time, b'read_datetime': read_datetime}
TABLE = {name.encode(): (f, kinds) for name, (f, kinds) in CALLS.items()}
LONGEST = 1000
FORM = re.compile(rb'[a-z_]+(?: (?:0|-?[1-9][0-9]{0,19}))+')


def request(line):
    """the call that a line asks for and what it is handed, or nothing where the line is no request"""
    if len(line) > LONGEST:
        return None
    name, space, text = line.partition(b' ')
    if name in READERS:
        return (READERS[name], (text,)) if space else None
    if not FORM.fullmatch(line):
        return None
    words = line.split(b' ')
    call = TABLE.get(words[0])
    if call is None:
        return None
    f, kinds = call
    if len(words) != len(kinds) + 1:
        return None
    numbers = tuple(map(int, words[1:]))
    for n, (low, high) in zip(numbers, kinds):
        if n < low or n > high:
            return None
    return f, numbers


def answer(line):
    if not line:
        return ''
    asked = request(line)
    if asked is None:
        return '?'
    f, handed = asked
    try:
        values = f(*handed)
    except Refusal as refusal:
        return str(refusal.number)
    return ' '.join(map(str, (0,) + values))


def main():
    text = sys.stdin.buffer.read()
    if not text:
        return
    if text.endswith(b'\n'):
        text = text[:-1]
    sys.stdout.write(''.join(answer(line) + '\n' for line in text.split(b'\n')))


if __name__ == '__main__':
    main()
