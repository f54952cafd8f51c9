"""Where the parts of the repository are. Whoever imports this module first can import the tools of the other folders,
too."""

import sys
from pathlib import Path

ROOT = Path(__file__).resolve().parents[2]
EXAMPLES = ROOT / "examples"
TABLES = ROOT / "tables"
DATA = ROOT / "crates" / "script_tests" / "data"
USERS = ROOT / "tools" / "users"
sys.path += [str(ROOT / "tools" / name) for name in ("users", "rows", "house")]
