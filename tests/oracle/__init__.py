"""A second program that computes the tables, compared with the built one by `python3 -m tests.oracle`."""
