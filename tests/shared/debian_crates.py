"""Lets cargo build offline with the crates that Debian packages install.

Needs Python 3.9 or later and the Debian packages librust-cc-dev, librust-pkg-config-dev, librust-rpassword-dev and
librust-zeroize-dev. Missing packages are installed if that is permitted (needs.py).
"""

import glob
import os

import needs
from running import write

# Debian's packages install the sources of crates here.
DIRECTORY = "/usr/share/cargo/registry"
# The crates on which the Rust packages of this repository depend.
CRATES = ("cc", "pkg-config", "rpassword", "zeroize")
CONFIGURATION = f"""[source.crates-io]
replace-with = "debian"
[source.debian]
directory = "{DIRECTORY}"
"""


def use(directory):
    """Configures cargo to use Debian's crates in this directory and all directories below it."""
    for name in CRATES:
        needs.need(lambda: glob.glob(f"{DIRECTORY}/{name}-[0-9]*") or None, f"the crate {name}", f"librust-{name}-dev")
    os.makedirs(os.path.join(directory, ".cargo"))
    write(directory, ".cargo/config.toml", CONFIGURATION.encode())
