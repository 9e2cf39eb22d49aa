"""Runs Windows programs with wine. Test scripts import this module."""

import glob
import os
import subprocess

import needs

# The directory of Debian's wine. It is not in PATH.
DIRECTORY = "/usr/lib/wine"


class Wine:
    """An installation of wine with its settings in a directory in `scratch`. `program` is the path of wine, and
    `variables` has the environment variables with which it must run."""

    def __init__(self, scratch):
        self.program = needs.need(
            lambda: needs.which("wine64") or next(iter(glob.glob(f"{DIRECTORY}/wine64")), None), "wine64", "wine64"
        )
        self.variables = {"WINEPREFIX": os.path.join(scratch, "wine"), "WINEDEBUG": "-all", "HOME": scratch}

    def end(self):
        """Stops wine's server."""
        environment = {**os.environ, **self.variables}
        subprocess.run([f"{DIRECTORY}/wineserver", "-k"], env=environment, stderr=subprocess.DEVNULL)
