"""`python -m sixel_check` is the command `sixel-report`."""

import sys

from ._report import main

sys.exit(main())
