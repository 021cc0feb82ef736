"""Beacon states and record files: read, written and held to the published tests. Python's standard library alone."""
