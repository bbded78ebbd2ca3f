"""What a release is made of, how it is packed, and which program a checkout takes, which may be that of a release."""

import sys
from pathlib import Path

# all else here may be in the words of a later Python
if sys.version_info < (3, 9):
    print(f"{Path(sys.argv[0]).name}: Python 3.9 or later is needed", file=sys.stderr)
    sys.exit(2)
