"""The package for Python and the programs, as they lie in the plugin."""

import os
import warnings


class ProgramFault(Exception):
    """The plugin cannot run here."""


def load():
    """The packages that the plugin calls: homerange, pandas and, for boundaries, geopandas."""
    try:
        import geopandas
        import pandas
        import pyproj  # noqa: F401
    except ImportError as fault:
        raise ProgramFault(
            f"homerange needs {fault.name} for QGIS' Python: sudo apt-get install python3-geopandas, and start QGIS anew"
        ) from fault
    from . import package

    # Fixes say it themselves, for the log.
    for said in (package.HomeRangeNote, package.HomeRangeInfo):
        warnings.filterwarnings("ignore", category=said)
    return package, pandas, geopandas


def program():
    """The path of the package's own program, which is held to its checksum, as those beside it are. What QGIS unpacks has no right
    to run."""
    from .package.program import OWN, PAGE, SPLIT, check_own

    for path in (OWN, OWN.with_name(SPLIT), OWN.with_name(PAGE)):
        if path.is_file() and not os.access(path, os.X_OK):
            path.chmod(0o755)
        check_own(path)
    return str(OWN)
