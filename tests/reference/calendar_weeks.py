"""Open days counted day by day, and how many looks at single closed days a count by weeks takes without its
searches."""

import itertools

FIRST, LAST = 10957, 84005


def is_closed_weekday(mask, day):
    """Monday is the first of the mask, and day 0 was a Thursday."""
    return mask[(day + 3) % 7] == "c"


class Weekdays:
    """How many days of the calendar, up to each one, fall on weekdays that a mask leaves open, counted day by day."""

    counted = {}

    @classmethod
    def up_to(cls, mask, day):
        if mask not in cls.counted:
            opened = (not is_closed_weekday(mask, it) for it in range(FIRST, LAST + 1))
            cls.counted[mask] = [0, *itertools.accumulate(opened)]
        return cls.counted[mask][day - FIRST + 1]


def open_days_after(mask, singles, due, today):
    if today <= due:
        return 0
    closed = sum(due < it <= today and not is_closed_weekday(mask, it) for it in singles)
    return Weekdays.up_to(mask, today) - Weekdays.up_to(mask, due) - closed


def least_open(mask, singles, day):
    return next((it for it in range(day, LAST + 1) if not is_closed_weekday(mask, it) and it not in singles), None)


def looks(singles, due, day, least):
    """How many looks each call takes, without its searches; the first takes two of these, the second one."""
    end = LAST + 1 if least is None else least
    return sum(due < it <= day for it in singles), sum(day <= it < end for it in singles) + any(it > end for it in singles)


def line_of(mask, singles, due, day):
    return f"{mask} {','.join(map(str, singles)) or '-'} {due} {day}"
