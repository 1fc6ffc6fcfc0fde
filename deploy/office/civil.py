"""Civil time in the zone of a tariff book (docs/FORMATS.md, "Tariff book").

Prices, statements' months and what operators type go by it. A zone's text is POSIX's (Base
Definitions 8.3) or `+hh:mm`; the standard library's `zoneinfo` reads the former as the footer of a
file of time zones (RFC 8536). A conversion takes some microseconds."""
from __future__ import annotations

import datetime
import io
import re
import struct
import zoneinfo

from office.faults import Unread

FIXED = re.compile(r"([+-])(\d\d):(\d\d)")
TYPED = re.compile(r"\d{4}-\d\d-\d\dT\d\d:\d\d")
MONTH = re.compile(r"(19[7-9]\d|20\d\d)(0[1-9]|1[0-2])")
FORM = "%Y-%m-%dT%H:%M"
DAY = 86_400
MINUTES_OF_DAY = 24 * 60


class Zone:
    """The clock of one zone text."""

    def __init__(self, text: str) -> None:
        self.text, self.zone = text, zone_of(text)

    def at(self, moment: int) -> datetime.datetime:
        """What the clock shows at a moment, in seconds since 1970."""
        return datetime.datetime.fromtimestamp(moment, self.zone)

    def offset(self, moment: int) -> datetime.timedelta | None:
        """How far the clock is ahead of UTC at a moment."""
        return self.at(moment).utcoffset()

    def month(self, moment: int) -> str:
        """The civil month of a moment, YYYYMM."""
        return self.at(moment).strftime("%Y%m")

    def day(self, moment: int) -> str:
        """The civil day of a moment, YYYY-MM-DD."""
        return self.at(moment).strftime("%Y-%m-%d")

    def shown(self, moment: int) -> str:
        """A moment as people read it, with its offset."""
        return self.at(moment).strftime("%a %Y-%m-%d %H:%M %z")

    def cycle(self, kind: str, moment: int) -> int:
        """The number of the cycle of a moment: of all time, a day, a month."""
        if kind == "none":
            return 0
        civil = self.at(moment)
        if kind == "month":
            return 12 * (civil.year - 1969) + civil.month - 1
        return civil.toordinal() - datetime.date(1969, 12, 31).toordinal()

    def minute_of_week(self, moment: int) -> int:
        """The minutes since Monday 00:00, on the clock, at the beginning of the UTC minute."""
        civil = self.at(moment - moment % 60)
        return civil.weekday() * MINUTES_OF_DAY + civil.hour * 60 + civil.minute

    def day_end(self, moment: int, days: int) -> int:
        """00:00 of the day after so many days behind the moment's own."""
        day = self.at(moment).date() + datetime.timedelta(days + 1)
        return self.moment(datetime.datetime(day.year, day.month, day.day))

    def moment(self, civil: datetime.datetime) -> int:
        """The moment at which the clock shows a time; in a gap or a fold by the offset before."""
        return int(civil.replace(tzinfo=self.zone, fold=0).timestamp())

    def typed(self, text: str) -> int:
        """The moment of `YYYY-MM-DDThh:mm` on this clock."""
        if not TYPED.fullmatch(text):
            raise Unread(f"{text!r} is no moment: YYYY-MM-DDThh:mm, in the zone {self.text}")
        try:
            return self.moment(datetime.datetime.strptime(text, FORM))
        except ValueError as fault:
            raise Unread(f"{text!r} is no moment: {fault}") from fault


def zone_of(text: str) -> datetime.tzinfo:
    """The rules of a zone text."""
    fixed = FIXED.fullmatch(text)
    if fixed:
        ahead = datetime.timedelta(hours=int(fixed[2]), minutes=int(fixed[3]))
        return datetime.timezone(ahead if fixed[1] == "+" else -ahead)
    header = struct.pack(">4sc15x6L", b"TZif", b"2", 0, 0, 0, 0, 1, 4)
    block = header + struct.pack(">lBB", 0, 0, 0) + b"UTC\0"
    return zoneinfo.ZoneInfo.from_file(io.BytesIO(block + block + f"\n{text}\n".encode()))


def month_of(text: str) -> str:
    """A month as the words have it, YYYYMM."""
    if not MONTH.fullmatch(text):
        raise Unread(f"{text!r} is no month: YYYYMM, 197001 to 209912")
    return text
