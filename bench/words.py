"""Figures in words."""


def digits(value):
    return f"{value:.2f}" if value < 10 else f"{value:.1f}" if value < 100 else f"{value:,.0f}"


def scaled(value, units):
    """A value in the last of its units that it fills."""
    factor, unit = next((it for it in reversed(units) if value >= it[0]), units[0])
    return value / factor, unit


TIMES = (1e-6, "µs"), (1e-3, "ms"), (1, "s")
BYTES = (1e3, "kB"), (1e6, "MB"), (1e9, "GB")


def time_text(seconds):
    value, unit = scaled(seconds * (1 + 1e-9), TIMES)
    return f"{value:g} {unit}" if is_power(seconds) else f"{digits(value)} {unit}"


def bytes_text(count):
    value, unit = scaled(count * (1 + 1e-9), BYTES)
    return f"{value:.0f} {unit}" if is_power(count) or value >= 10 else f"{value:.1f} {unit}"


def count_text(count):
    return f"{count:,}"


def count_on_axis(number):
    """A number in few characters, for the ticks of an axis."""
    for unit, name in ((1_000_000, "M"), (1_000, "k")):
        if number >= unit and number % unit == 0:
            return f"{number // unit}{name}"
    return str(number)


def ratio_text(value):
    return f"{value:.2f}" if value < 1 else f"{value:.1f}" if value < 10 else f"{value:,.0f}"


def is_power(value):
    """Whether it is a power of ten, as the marks of a scale are."""
    return f"{value:.6e}".startswith("1.000000e")
