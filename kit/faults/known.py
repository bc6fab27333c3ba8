"""The collectors in whose sources faults are planted, and those whose lines are counted."""
from __future__ import annotations

from faults.cpython import CPYTHON
from faults.cpython_places import CPYTHON_PLACES
from faults.go_places import GO_PLACES
from faults.libgc import LIBGC
from faults.libgc_places import LIBGC_PLACES
from faults.lua import LUA
from faults.lua_places import LUA_PLACES
from faults.ocaml import OCAML
from faults.ocaml_places import OCAML_PLACES
from faults.racket import RACKET
from faults.racket_places import RACKET_PLACES
from faults.ruby import RUBY
from faults.ruby_places import RUBY_PLACES

ALL = (LUA, LIBGC, OCAML, CPYTHON, RUBY, RACKET)
PLANS = (LUA_PLACES, LIBGC_PLACES, OCAML_PLACES, CPYTHON_PLACES, RUBY_PLACES, RACKET_PLACES, GO_PLACES)
