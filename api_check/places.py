"""Where the files of the repository are."""

import tempfile
from pathlib import Path

ROOT = Path(__file__).resolve().parent.parent
DOCUMENT = ROOT / "docs" / "openapi.yaml"
API_MD = ROOT / "docs" / "API.md"
CASES = ROOT / "cases"
FAILING_C = ROOT / "tests" / "failing" / "failing.c"
KEPT = Path(tempfile.gettempdir()) / "api_check"
STANDARD = Path("/usr/share/openapi-specification/schemas/v3.0/schema.json")
