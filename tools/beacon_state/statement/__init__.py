"""A statement of closes: what each validator opened and closed an epoch with, what was given and taken by rule, and by what blocks did."""
