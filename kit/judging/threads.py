"""What `--threads` does: asks for logs of scripts, and tells of the first that has no order."""
from __future__ import annotations

import argparse
import itertools
import pathlib
from collections.abc import Iterator, Sequence

from judging.comparing import Reference
from judging.modes import Mode
from judging.options import Usage
from judging.racing import Disordered, Racing, Reduction, Tally, Verdict, is_finding
from judging.scripts import Script, read_file, read_script
from judging.sources import DEFAULT_SEEDS, MOST_PAGES

# The profile of scripts whose sessions share objects.
PROFILE = "race"


def commands_alone(script: Script) -> Script:
    return script.with_events(event for event in script.events if event.is_command)


def scripts_of(options: argparse.Namespace, reference: Reference) -> Iterator[tuple[str, Script]]:
    """The scripts that are given, and those that are generated, without their controls."""
    try:
        for name in options.script:
            yield name, commands_alone(read_file(pathlib.Path(name), read_script))
    except OSError as error:
        raise Usage(f"{error.filename}: {error.strerror}") from None
    seeds = options.seeds
    if seeds is None:
        seeds = range(0) if options.script else DEFAULT_SEEDS
    words = ["--profile", PROFILE, "--controls", "0", "--events", str(options.events), "--pages", str(MOST_PAGES)]
    for seed in seeds:
        yield f"seed {seed} of profile {PROFILE}", reference.generated(["--seed", str(seed), *words])


def tell(options: argparse.Namespace, racing: Racing, name: str, script: Script, verdict: Verdict) -> None:
    """Makes the script smaller, keeps it with its log, and prints what is wrong."""
    reduction = Reduction(racing, options.repeat, options.shrink_seconds)
    script, verdict = reduction.reduce(script, verdict)
    kept = pathlib.Path(options.keep)
    kept.write_text(script.text, encoding="utf-8")
    for line in verdict.text():
        print(f"judge: {line}")
    print(f"judge: from {name}, {len(script.events)} events left after {reduction.runs} runs; kept in {kept}", flush=True)
    if isinstance(verdict, Disordered):
        log = kept.with_suffix(".log")
        log.write_text(verdict.log.text(), encoding="utf-8")
        print(f"judge: its log is kept in {log}", flush=True)


def judge_threads(options: argparse.Namespace, reference: Reference, modes: Sequence[Mode]) -> bool:
    """Judges logs up to the first finding, and says whether there is one. Scripts take turns at the modes."""
    tally = Tally()
    for mode, (name, script) in zip(itertools.cycle(modes), scripts_of(options, reference)):
        racing = Racing(reference, mode.program, options.seconds, options.event_seconds, options.most_states)
        verdict = racing.examine(script)
        tally.add(verdict)
        if is_finding(verdict):
            tell(options, racing, f"{name}, mode {mode.name}" if mode.name else name, script, verdict)
            return True
    if not tally.logs:
        raise Usage("there is no script to judge by")
    print(f"judge: nothing was found; {tally.text()}", flush=True)
    return False
