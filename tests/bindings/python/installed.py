"""Verifies the file `app` with the published key, as a program of a user who has installed the package.
tests/bindings/install_commands.py runs it.
"""

import minisign_proved

try:
    minisign_proved.verify("app", minisign_proved.PublicKey.from_base64("RWQf6LRCGA9i53mlYecO4IzT51TGPpvWucNSCh1CBM0QTaLn73Y7GFO3"))
    print("true")
except minisign_proved.MinisignError:
    print("false")
