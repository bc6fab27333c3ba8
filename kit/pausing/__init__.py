"""The parts of `kit/pauses`: logs of runtimes, read as runs of the mutator and of the collector."""
