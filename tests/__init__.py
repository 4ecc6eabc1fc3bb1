"""Tests of `ason` and of the tools beside it: `python3 -m unittest` at the top of the repository.

The program is the one that the environment variable ASON names, or the one that the script `ason` has built.
"""

import sys
from pathlib import Path

sys.path.insert(0, str(Path(__file__).resolve().parents[1] / "tools"))
