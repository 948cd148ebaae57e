"""The checks: the tests of the Python side, the kept cases, the comparison, and the gate that runs them all."""
