"""The checks that the self-test runs."""
