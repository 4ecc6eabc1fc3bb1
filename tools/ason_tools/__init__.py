"""What the tools beside `ason` share: plans, tables, topology files, routes and pictures."""

import sys

if sys.version_info < (3, 11):
    sys.exit("the tools beside ason need Python 3.11 or later")
