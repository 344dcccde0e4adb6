# In place of the stubs of pandas, which Debian has not: names alone, so that mypy tells one class from another.
from typing import Any

class DataFrame:
    def __getattr__(self, name: str) -> Any: ...

class Series:
    def __getattr__(self, name: str) -> Any: ...

def __getattr__(name: str) -> Any: ...
