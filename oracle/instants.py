"""Instants as texts: a date, a time and an offset from UTC, as the Temporal grammar has them.

`read(text)` gives microseconds since 1970, cut, or None; `write(micros)` the one form that is written.
"""

GREATEST = 253402207200999999


class NoInstant(Exception):
    pass


class Reader:
    def __init__(self, text):
        self.text = text
        self.at = 0

    def front(self, count=1):
        return self.text[self.at:self.at + count]

    def take(self, characters):
        """The next character, where it is one of these."""
        c = self.front()
        if c and c in characters:
            self.at += 1
            return c
        return None

    def need(self, characters):
        if self.take(characters) is None:
            raise NoInstant

    def has_digits(self, count):
        s = self.front(count)
        return len(s) == count and all(c in "0123456789" for c in s)

    def digits(self, count):
        if not self.has_digits(count):
            raise NoInstant
        self.at += count
        return int(self.text[self.at - count:self.at])

    def field(self, least, greatest):
        n = self.digits(2)
        if not least <= n <= greatest:
            raise NoInstant
        return n

    def fraction(self):
        """After a dot or a comma one to nine digits, as nanoseconds."""
        if not self.take(".,"):
            return None
        count = 0
        while count < 9 and self.front() and self.front() in "0123456789":
            self.at += 1
            count += 1
        if count == 0:
            raise NoInstant
        return int(self.text[self.at - count:self.at].ljust(9, "0"))

    def another(self, extended):
        """Whether another part of a time follows."""
        return self.take(":") is not None if extended else self.has_digits(2)

    def year(self):
        sign = self.take("+-")
        if sign is None:
            return self.digits(4)
        if self.digits(2) != 0:
            raise NoInstant
        n = self.digits(4)
        if sign == "-":
            if n == 0:
                raise NoInstant
            n = -n
        return n

    def date(self):
        year = self.year()
        extended = self.front() == "-"
        parts = []
        for least, greatest in ((1, 12), (1, 31)):
            if (self.take("-") is not None) != extended:
                raise NoInstant
            parts.append(self.field(least, greatest))
        if parts[1] > days_of(year, parts[0]):
            raise NoInstant
        return days_before(year, *parts)

    def time(self):
        """Seconds and nanoseconds of the day."""
        hour, minute, second, nanos = self.field(0, 23), 0, 0, None
        extended = self.front() == ":"
        if self.another(extended):
            minute = self.field(0, 59)
            if self.another(extended):
                second = min(self.field(0, 60), 59)
                nanos = self.fraction()
        return hour * 3600 + minute * 60 + second, nanos or 0

    def offset(self):
        """Seconds from UTC."""
        if self.take("Zz"):
            return 0
        return self.numeric(True)

    def numeric(self, with_seconds):
        sign = self.take("+-")
        if sign is None:
            raise NoInstant
        total = self.field(0, 25) * 3600
        extended = self.front() == ":"
        if self.another(extended):
            total += self.field(0, 59) * 60
            if not with_seconds:
                if self.front() == ":":
                    raise NoInstant
            elif self.another(extended):
                total += self.field(0, 59)
                nanos = self.fraction()
                if nanos is not None and nanos >= 500000000:
                    total += 1
        if with_seconds and total > 93599:
            raise NoInstant
        return total if sign == "+" else -total

    def run(self, starts, continues, separator=""):
        """Parts with a separator between them."""
        while True:
            self.need(starts)
            while self.take(continues):
                pass
            if not (separator and self.take(separator)):
                return

    def annotations(self):
        if self.front() != "[":
            return
        start = self.at
        self.at += 1
        self.take("!")
        if self.front() in ("+", "-"):
            self.numeric(False)
            self.need("]")
        else:
            self.run(LETTERS + "_.", LETTERS + DIGITS + "_.+-")
            if self.front() == "=":
                self.at = start
            else:
                # The rest of a zone's name.
                while True:
                    while self.take(LETTERS + DIGITS + "_.+-"):
                        pass
                    if not self.take("/"):
                        break
                    self.need(LETTERS + "_.")
                self.need("]")
        while self.take("["):
            critical = self.take("!")
            self.run(LOWER + "_", LOWER + DIGITS + "_-")
            self.need("=")
            self.run(LETTERS + DIGITS, LETTERS + DIGITS, "-")
            self.need("]")
            if critical:
                raise NoInstant


LOWER = "abcdefghijklmnopqrstuvwxyz"
LETTERS = LOWER + LOWER.upper()
DIGITS = "0123456789"


def days_before(year, month, day):
    """Days from 1970-01-01 to a date of the Gregorian calendar."""
    year -= month <= 2
    era, year_of_era = divmod(year, 400)
    day_of_year = (153 * ((month + 9) % 12) + 2) // 5 + day - 1
    return (era * 146097 + year_of_era * 365 + year_of_era // 4 - year_of_era // 100 + day_of_year
            - 719468)


def days_of(year, month):
    if month == 2:
        return 29 if year % 4 == 0 and (year % 100 != 0 or year % 400 == 0) else 28
    return 30 if month in (4, 6, 9, 11) else 31


def read(text):
    r = Reader(text)
    try:
        days = r.date()
        r.need(" Tt")
        seconds, nanos = r.time()
        offset = r.offset()
        r.annotations()
        if r.at != len(text):
            return None
    except NoInstant:
        return None
    nanos += (days * 86400 + seconds - offset) * 1000000000
    return nanos // 1000 if 0 <= nanos < (GREATEST + 1) * 1000 else None


def write(micros):
    days, rest = divmod(micros, 86400 * 1000000)
    seconds, fraction = divmod(rest, 1000000)
    # The date that is so many days after 1970-01-01.
    days += 719468
    era, day_of_era = divmod(days, 146097)
    year_of_era = (day_of_era - day_of_era // 1460 + day_of_era // 36524 - day_of_era // 146096) // 365
    day_of_year = day_of_era - (365 * year_of_era + year_of_era // 4 - year_of_era // 100)
    mp = (5 * day_of_year + 2) // 153
    day, month = day_of_year - (153 * mp + 2) // 5 + 1, mp + 3 if mp < 10 else mp - 9
    year = year_of_era + era * 400 + (month <= 2)
    return "%04d-%02d-%02dT%02d:%02d:%02d.%06dZ" % (
        year, month, day, seconds // 3600, seconds // 60 % 60, seconds % 60, fraction)
