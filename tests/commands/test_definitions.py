"""Pages say how to print a definition that a contract uses: by `rt lemma`, in the folder of a crate above it."""
import subprocess

import pytest

from tests.cases import TOP


@pytest.mark.needs("rt")
@pytest.mark.parametrize(
    "folder, name, shown",
    [("crates/net_stack", "StepBy", "(Close fd) reply new"), ("crates/ip_out", "head_fault", "BadHeaderLength")],
)
def test_a_definition_is_printed(folder, name, shown):
    words = ["rt", "lemma", name]
    said = subprocess.run(words, cwd=TOP / folder, check=True, capture_output=True, text=True).stdout
    assert f"{{{name}}}" in said.partition("\n")[0] and shown in said, said
