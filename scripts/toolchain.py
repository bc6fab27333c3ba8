"""The code of the command `rt`, for what it has no command for. Where that code has changed, the scripts that use it fail."""
import os
import pathlib
import subprocess
import sys
from importlib.machinery import SourceFileLoader
from importlib.util import module_from_spec, spec_from_loader


# What `must_fail` says of an edit that is refused. The kind that it gives beside its text differs from kit to kit.
REFUSED = "refused, as it must be"


def code():
    """The command `rt`, a script of Python beside the page that it prints, as a module."""
    place = pathlib.Path(subprocess.check_output(["rt", "doc"], text=True).strip()).parent / "bin"
    sys.path.insert(0, str(place))
    loader = SourceFileLoader("rt", str(place / "rt"))
    module = module_from_spec(spec_from_loader("rt", loader))
    loader.exec_module(module)
    return module


def crates_in(rt, top):
    """The crates of the repository there, which becomes the current folder."""
    os.chdir(top)
    rt.Crate.allowed = rt.handles_of(str(top))
    rt.rtlib.Crate = rt.Crate
    return rt.rtlib.crates_below(str(top))
