"""`python3 -m shahfureel`."""

import sys

try:
    from .commands import main

    sys.exit(main(prog="python3 -m shahfureel"))
except KeyboardInterrupt:  # while it is still being loaded
    sys.exit(130)
