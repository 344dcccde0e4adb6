# In place of stubs of matplotlib: a name alone.
from typing import Any

class Axes:
    def __getattr__(self, name: str) -> Any: ...
