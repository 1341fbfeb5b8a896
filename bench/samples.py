"""Samples of one field of many meters, a minute apart, for the measurements beside other stores."""

from store import START

# The steps of a row in each archive, for as many archives as are asked for.
STEPS = [1, 2, 4, 8, 16, 32, 48, 64]


def value(one, minute):
    """The value of a meter in a minute."""
    return (one * 7919 + minute * 104_729) % 100_000


def second(minute):
    return START + 60 * minute


def key(one):
    """The key of a meter's series."""
    return f"meter,site=s{one // 10},unit=u{one % 10} kwh"


def line(one, minute):
    """A sample in the line protocol."""
    return f"{key(one)}={value(one, minute)}i {second(minute)}000000000\n"
