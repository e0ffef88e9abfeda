"""Has the tests find the package, and in the repository the scripts of tools/."""

import sys
from pathlib import Path

# The folder of the package, and the repository that it stands in.
HOME = Path(__file__).resolve().parents[1]
TOP = HOME.parent
for folder in (TOP / "tools", HOME):
    sys.path.insert(0, str(folder))
