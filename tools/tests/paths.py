"""The folders of what is tested."""
import sys
from pathlib import Path

sys.dont_write_bytecode = True
ROOT = Path(__file__).resolve().parents[2]
for folder in ("tools", "tools/auditing", "tools/editing"):
    sys.path.insert(0, str(ROOT / folder))
