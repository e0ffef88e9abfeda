"""Reads TOML: Python's own reader, and before Python 3.11, which has none, the same one that pip brings.

The tests of the Python package read files of tests/ by it, by each Python from 3.9 on.
"""

try:
    from tomllib import loads
except ModuleNotFoundError:
    from pip._vendor.tomli import loads

__all__ = ["loads"]
