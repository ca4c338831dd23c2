"""A plain reading of dates: the nanoseconds since 1970 that a text of RFC 3339 tells, and their text in UTC."""
import datetime
import re

BEGIN = datetime.datetime(1970, 1, 1)
TEXT = re.compile(r'(\d{4})-(\d\d)-(\d\d)[Tt](\d\d):(\d\d):(\d\d)(?:\.(\d{1,9}))?([Zz]|[+-]\d\d:\d\d)')

# Texts of dates: before and after 1970, with offsets, fractions and a leap second, and the first and the last that a field takes.
WRITTEN = ['1990-01-01T00:00:00Z', '2001-01-01T00:00:00Z', '1969-12-31T23:59:59.999999999Z', '2024-02-29T12:30:00.5+02:00', '1999-12-31T23:30:00-00:30', '2000-01-01t00:00:00z',
           '2016-12-31T23:59:60Z', '1677-09-21T00:12:43.145224192Z', '2262-04-11T23:47:16.854775807Z', '1970-01-01T00:00:00Z', '1900-02-28T23:59:59.120Z']


def nanoseconds_of(text):
    """Returns the nanoseconds since 1970 that a text tells. A leap second is the one before it."""
    year, month, day, hour, minute, second, fraction, offset = TEXT.fullmatch(text).groups()
    told = datetime.datetime(int(year), int(month), int(day), int(hour), int(minute), min(int(second), 59)) - BEGIN
    seconds = told.days * 86400 + told.seconds
    if offset not in 'Zz':
        sign = 1 if offset[0] == '+' else -1
        seconds -= sign * (int(offset[1:3]) * 3600 + int(offset[4:6]) * 60)
    return seconds * 10 ** 9 + int((fraction or '0').ljust(9, '0'))


def text_of(number):
    """Returns the text of this many nanoseconds since 1970, with as many digits of a second as it needs."""
    seconds, fraction = divmod(number, 10 ** 9)
    told = BEGIN + datetime.timedelta(seconds=seconds)
    digits = f'.{fraction:09}'.rstrip('0') if fraction else ''
    return f'{told.year:04}-{told.month:02}-{told.day:02}T{told.hour:02}:{told.minute:02}:{told.second:02}{digits}Z'
