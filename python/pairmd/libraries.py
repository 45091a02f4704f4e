"""Libraries that parts of the module need: each is imported when it is first used, so that files and commands of the
program work without any.
"""

from __future__ import annotations

import importlib
from typing import TYPE_CHECKING, Any

from .errors import LibraryMissing

__all__ = ["Array", "ase", "ase_units", "fft", "figures", "has_numpy", "Library", "mdanalysis", "np", "spatial"]


class Library:
    """A module of a library, imported when an attribute is first read.

    name: of the module. package: of Debian. project: on PyPI.
    """

    def __init__(self, name: str, package: str, project: str) -> None:
        self._how = (name, package, project)

    def __getattr__(self, attribute: str) -> Any:
        """Imports the module, and returns its attribute. Raises LibraryMissing if it isn't installed."""
        name, package, project = self._how
        try:
            found = getattr(importlib.import_module(name), attribute)
        except ModuleNotFoundError as error:
            if error.name not in (name, name.partition(".")[0]):
                raise
            raise LibraryMissing(name, package, project) from None
        if not attribute.startswith("__"):
            setattr(self, attribute, found)
        return found


if TYPE_CHECKING:
    import numpy as np
    from numpy.typing import NDArray
    from scipy import fft, spatial  # type: ignore[import]

    Array = NDArray[Any]
else:
    np = Library("numpy", "python3-numpy", "numpy")
    fft = Library("scipy.fft", "python3-scipy", "scipy")
    spatial = Library("scipy.spatial", "python3-scipy", "scipy")
    Array = Any

ase: Any = Library("ase", "python3-ase", "ase")
ase_units: Any = Library("ase.units", "python3-ase", "ase")
mdanalysis: Any = Library("MDAnalysis", "python3-mdanalysis", "MDAnalysis")
figures: Any = Library("matplotlib.figure", "python3-matplotlib", "matplotlib")


def has_numpy() -> bool:
    """Returns whether numpy is installed."""
    try:
        return bool(np.__version__)
    except LibraryMissing:
        return False
