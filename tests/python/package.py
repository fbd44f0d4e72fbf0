"""The package `bsdudp` for its tests. It's imported when a test first uses it, because the library that it loads may
not exist when pytest collects the tests."""
import importlib


class Package:
    """Has the names in the package, except those that pytest searches in each object of a module."""

    def __getattr__(self, name):
        if name in ("__test__", "_pytestfixturefunction"):
            raise AttributeError(name)
        return getattr(importlib.import_module("bsdudp"), name)


bsdudp = Package()
