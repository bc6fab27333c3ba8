"""The tests of `kit/pauses`, and the curve of a log of pauses by its definitions."""
