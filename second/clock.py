"""The clock of document 01: ticks of 10 ms in 32 bits, which start over after 4,294,967,295."""

from sync import LAST_STAMP, refuse_if

TICKS = 1 << 32


def stamp_of(start, tick):
    """The stamp of a moment. A moment before the start is far past it, since ticks start over."""
    stamp = (tick - start) % TICKS
    refuse_if(stamp > LAST_STAMP, 23)
    return stamp


def due(start, stamp):
    refuse_if(stamp > LAST_STAMP, 5)
    return (start + stamp) % TICKS


def lateness(arrival, due_tick):
    """Arrival less due, from -2,147,483,648 to 2,147,483,647; negative when early."""
    difference = (arrival - due_tick) % TICKS
    return difference if difference < TICKS // 2 else difference - TICKS
