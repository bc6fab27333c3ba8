"""The parts of the judge: scripts, programs that answer them, what is compared, shrinking, and what is reported."""
