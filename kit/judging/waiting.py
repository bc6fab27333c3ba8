"""How long programs may take. Whoever runs the judge has these times, if the command line has no others."""
from __future__ import annotations

# A script may take so many seconds, and so many more for each of its events.
SECONDS = 5.0
EVENT_SECONDS = 0.0005
# The same for a runtime that takes long to start, and for each of its collections.
DEAR_SECONDS = 20.0
DEAR_EVENT_SECONDS = 0.005
# What of these times a program gets in which a fault is planted, since the first run of a hang lasts that long. It gets
# the whole of them before it is a finding.
PLANTED = 0.2

# Shares of that time: the time itself, what a program gets that gave no answer before that is a finding, and what it
# gets while a hang is made smaller. A hang is waited for at each run that has it, so a process that is asked several
# scripts gets at first the time of one script with all their events.
WHOLE = 1.0
LONGER = 5.0
SHARE_OF_A_HANG = 0.25


def in_seconds(seconds: float) -> str:
    """A time as it is written."""
    return f"{round(seconds, 2):g} s"
