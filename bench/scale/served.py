"""Stands here for a module of another folder: the gate takes no links in a repository."""

import sys
from importlib.util import module_from_spec, spec_from_file_location
from pathlib import Path

_PLACE = Path(__file__).resolve().parent / "../../tests/sync/served.py"
_SPEC = spec_from_file_location(__name__, _PLACE.resolve())
if _SPEC is None or _SPEC.loader is None:
    raise ImportError(f"{_PLACE} is no module")
sys.modules[__name__] = module_from_spec(_SPEC)
_SPEC.loader.exec_module(sys.modules[__name__])
