"""The checks of checks/outside.py: a file for each row of the table in CONTRIBUTING.md."""
