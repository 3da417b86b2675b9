"""Numbers as people write them."""
import datetime
import fractions
import re

UNITS = (("T", 10**12), ("G", 10**9), ("M", 10**6), ("K", 10**3))


SIZE = re.compile(r"(\d{1,20}(?:\.\d{1,9})?)([KMGT]?)(B|iB)?", re.IGNORECASE | re.ASCII)
DURATION = re.compile(r"(\d{1,18})(s|m|h|d|w)?", re.ASCII)
SECONDS = {"s": 1, "m": 60, "h": 3600, "d": 86400, "w": 604800}


def bytes_of(text):
    """The bytes that a size says: 10M and 10MB are 10^7, 10MiB are 10 * 2^20, 0.5G is 5 * 10^8."""
    found = SIZE.fullmatch(text.strip())
    if not found or (found[3] or "").lower() == "ib" and not found[2]:
        raise ValueError(repr(text))
    power = "KMGT".index(found[2].upper()) + 1 if found[2] else 0
    unit = 1024**power if (found[3] or "").lower() == "ib" else 1000**power
    value = fractions.Fraction(found[1]) * unit
    if value.denominator != 1:
        raise ValueError(repr(text))
    return int(value)


def seconds_of(text):
    """The seconds that a duration says: 90, 90s, 15m, 1h, 7d."""
    found = DURATION.fullmatch(text.strip())
    if not found:
        raise ValueError(repr(text))
    return int(found[1]) * SECONDS[found[2] or "s"]


def size(count):
    """Bytes by three digits: 4.50M, 18.0M, 140M."""
    for name, unit in UNITS:
        if count >= unit * 0.9995:
            value = count / unit
            return f"{value:.2f}{name}" if value < 9.995 else f"{value:.1f}{name}" if value < 99.95 else f"{value:.0f}{name}"
    return f"{count:.0f}"


def short_size(count):
    """Bytes without zeros at the end: 18M, 4.5M."""
    text = size(count)
    number, unit = (text[:-1], text[-1]) if text[-1].isalpha() else (text, "")
    return (number.rstrip("0").rstrip(".") if "." in number else number) + unit


def duration(seconds):
    """Seconds as one or two units: 45s, 7m, 1h, 1h 10m, 2d 03h."""
    if seconds < 60:
        return f"{seconds}s"
    if seconds < 3600:
        return f"{seconds // 60}m"
    whole, part, names = (seconds // 3600, seconds % 3600 // 60, "hm") if seconds < 86400 else (seconds // 86400, seconds % 86400 // 3600, "dh")
    return f"{whole}{names[0]} {part:02}{names[1]}" if part else f"{whole}{names[0]}"


def moment(seconds):
    """A moment as UTC; one of a trace that begins at 0 as its seconds."""
    if not 10**8 <= seconds < 10**11:
        return str(seconds)
    return datetime.datetime.fromtimestamp(seconds, datetime.timezone.utc).strftime("%Y-%m-%d %H:%M:%S UTC")


def percent(share, digits=1):
    return f"{100 * share:.{digits}f} %"


def times(value):
    return f"{value:.1f}x" if value < 10 else f"{value:.0f}x"


def many(count, what):
    """A count with its noun: 1 key, 2 keys."""
    return f"{count:,} {what}" + ("" if count == 1 else "s")
