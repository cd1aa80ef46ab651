"""The time stamps, and the prefixes of syslog and of the journal, before the
lines of a mosquitto log."""
import re
from calendar import timegm
from collections.abc import Sequence
from datetime import datetime

from ..script.syslog import PREFIX

ISO = re.compile(r"(\d{4}-\d\d-\d\d[T ]\d\d:\d\d:\d\d(?:[+-]\d\d:?\d\d|Z)?): ")
EPOCH = re.compile(r"(\d{9,11}): ")
MONTHS = "Jan Feb Mar Apr May Jun Jul Aug Sep Oct Nov Dec".split()
DAYS_BEFORE = (0, 31, 59, 90, 120, 151, 181, 212, 243, 273, 304, 334)
HALF_A_YEAR = 182 * 86_400
# an even number: only the line of a grant may begin like a stamp, and stands below another line
LOOKED_AT = 20


class Stamps:
    """Takes what stands before mosquitto's text off the lines. Without a format most of the first
    lines decide what that is."""

    def __init__(self, form: str | None = None) -> None:
        self.form = form
        self.pattern: re.Pattern[str] | None = None
        self.prefixed = False
        self.years = 0  # that a prefix without a year has gone through
        self.others = 0  # lines of other programs
        self.last: tuple[str, int | None] = ("", None)
        self.prefix_time: int | None = None
        # the last stamp, where it stands alone before the text: most lines begin with it, and their
        # reader takes it off
        self.alone: str | None = None

    def decide(self, lines: Sequence[str]) -> None:
        """Finds the form by the first lines of a file: the first of all may be cut, or
        begin like a stamp by chance."""
        self.alone = None

        def most(pattern: re.Pattern[str], texts: Sequence[str]) -> bool:
            return 2 * sum(1 for t in texts if pattern.match(t)) > len(texts)
        self.prefixed = most(PREFIX, lines)
        if self.prefixed:
            lines = [line[m.end():]
                     for line in lines if (m := PREFIX.match(line)) and "mosquitto" in m[7]]
        if not self.form:
            self.pattern = next((p for p in (EPOCH, ISO) if most(p, lines)), self.pattern)

    def found(self) -> bool:
        return bool(self.form or self.pattern or self.prefixed)

    def split(self, line: str) -> tuple[int | None, str]:
        """The line's time in seconds, if it has one, and the line without it. Of
        another program's line no text."""
        if not self.prefixed:
            return self.own(line)
        found = PREFIX.match(line)
        if found is None or "mosquitto" not in found[7]:
            self.others += 1
            return None, ""
        time, text = self.own(line[found.end():])
        if text.startswith("#011"):  # as rsyslog writes a tab
            text = "\t" + text[4:]
        return (self.of_prefix(found) if time is None else time), text

    def own(self, line: str) -> tuple[int | None, str]:
        """By the stamp that mosquitto itself writes."""
        if self.form:
            pieces = line.split(": ", self.form.count(": ") + 1)
            stamp, text = ": ".join(pieces[:-1]), pieces[-1]
        elif self.pattern:
            found = self.pattern.match(line)
            stamp, text = (found[1], line[found.end():]) if found else ("", line)
        else:
            return None, line
        if stamp != self.last[0]:
            seconds = self.seconds(stamp)
            if seconds is None:
                return None, line
            self.last = (stamp, seconds)
            self.alone = stamp if stamp and not (self.form or self.prefixed) else None
        return self.last[1], text

    def seconds(self, stamp: str) -> int | None:
        """A time without a zone is taken as one of UTC: only differences matter."""
        try:
            if self.pattern is EPOCH:
                return int(stamp)
            time = (datetime.strptime(stamp, self.form) if self.form
                    else datetime.fromisoformat(stamp))
        except ValueError:
            return None
        return int(time.timestamp()) if time.tzinfo else timegm(time.timetuple())

    def of_prefix(self, found: re.Match[str]) -> int | None:
        """A month and day without a year count in years of 365 days, one more where they go
        back by over half a year."""
        if found[6]:
            return int(found[6])
        try:
            if found[4]:
                zone = (found[5] or "").strip()
                time = datetime.fromisoformat(
                    found[4] + ("+00:00" if zone in ("UTC", "Z", "") else zone))
                return int(time.timestamp())
            hours, minutes, seconds = map(int, found[3].split(":"))
            day = DAYS_BEFORE[MONTHS.index(found[1])] + int(found[2])
        except ValueError:
            return None
        passed = ((self.years * 365 + day) * 24 + hours) * 3600 + minutes * 60 + seconds
        if self.prefix_time is not None and passed < self.prefix_time - HALF_A_YEAR:
            self.years += 1
            passed += 365 * 86_400
        self.prefix_time = passed
        return passed
