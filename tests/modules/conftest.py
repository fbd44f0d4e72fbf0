from tests.made import module  # noqa: F401 (a fixture)
