"""By when sheets are due: a date, or times of a week, in the time zone of the club."""

import os
import re
from dataclasses import dataclass
from datetime import datetime, time, timedelta, timezone, tzinfo
from pathlib import Path
from zoneinfo import ZoneInfo, ZoneInfoNotFoundError

from umpire_post.errors import PostError

DAYS = ("Monday", "Tuesday", "Wednesday", "Thursday", "Friday", "Saturday", "Sunday")
WEEKLY = re.compile(rf"({'|'.join(DAYS)}) ([01]?[0-9]|2[0-3]):([0-5][0-9])", re.I | re.A)
LEAST = timedelta(days=2)  # from now to a deadline by rule
MACHINE_ZONE = Path("/etc/localtime")
UTC = "UTC"


@dataclass(frozen=True)
class Zone:
    """A time zone and its name, such as Europe/Berlin."""

    name: str
    rule: tzinfo

    @classmethod
    def of(cls, name: str) -> "Zone":
        """Returns the zone of a name. Fails if there is none."""
        if name == UTC:
            return cls(name, timezone.utc)
        try:
            return cls(name, ZoneInfo(name))
        except (ZoneInfoNotFoundError, ValueError, OSError) as wrong:
            raise PostError(f"{name!r} is not a time zone that this machine knows, such as Europe/Berlin or UTC") from wrong

    @classmethod
    def of_machine(cls) -> "Zone":
        """Returns the zone of this machine, or UTC if it tells none."""
        named = os.environ.get("TZ", "") or os.path.realpath(MACHINE_ZONE).partition("/zoneinfo/")[2]
        try:
            return cls.of(named.removeprefix("Etc/") or UTC)
        except PostError:
            return cls.of(UTC)

    def told(self, moment: datetime) -> str:
        """Returns a moment as a letter tells it: `Sunday 2026-12-06 18:00 (Europe/Berlin)`."""
        here = moment.astimezone(self.rule)
        return f"{DAYS[here.weekday()]} {here:%Y-%m-%d %H:%M} ({self.name})"


@dataclass(frozen=True)
class Rule:
    """Times of a week at which sheets are due, each a day and a time of it."""

    times: tuple[tuple[int, time], ...]

    @classmethod
    def of(cls, text: str) -> "Rule":
        """Reads a rule such as `Sunday 18:00` or `Wednesday 20:00, Sunday 18:00`. Fails if it is none."""
        found = [WEEKLY.fullmatch(it.strip()) for it in text.split(",")]
        times = [(DAYS.index(it[1].capitalize()), time(int(it[2]), int(it[3]))) for it in found if it]
        if len(times) < len(found):
            raise PostError(f"{text!r} is not a time of the week, such as 'Sunday 18:00', nor a date such as '2026-12-06 18:00'")
        return cls(tuple(times))

    def next(self, now: datetime, zone: Zone) -> datetime:
        """Returns the first such time that is at least two days away."""
        least = now.astimezone(zone.rule) + LEAST
        days = [least.date() + timedelta(days=it) for it in range(8)]
        moments = [datetime.combine(day, at, zone.rule) for day in days for weekday, at in self.times if day.weekday() == weekday]
        return min(it for it in moments if it >= least)


def deadline(text: str, now: datetime, zone: Zone) -> datetime:
    """Reads a deadline: a date and a time that are to come, or a rule. Fails if it is neither."""
    if is_rule(text):
        return Rule.of(text).next(now, zone)
    try:
        found = datetime.strptime(text.strip(), "%Y-%m-%d %H:%M").replace(tzinfo=zone.rule)
    except ValueError as wrong:
        raise PostError(f"{text!r} is not a date and a time such as '2026-12-06 18:00'") from wrong
    if found <= now:
        raise PostError(f"{zone.told(found)} is past")
    return found


def is_rule(text: str) -> bool:
    """Returns whether a text is meant as a rule, and not as a date."""
    return not text.strip()[:1].isdecimal()
