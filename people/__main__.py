"""Where tools/spoonwing begins: the package is found from the repository's top on."""

import sys
from pathlib import Path

sys.path[0] = str(Path(__file__).resolve().parent.parent)

from people.main import run

sys.exit(run(sys.argv[1:]))
