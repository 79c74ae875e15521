"""The cases of tests/cli.py. Each module of `SUITES` has a function `cases`, which gives them; the others are what these share."""

SUITES = ("one_of_each", "answers", "refusals", "usage", "files", "output", "sizes", "ends", "lines", "table_texts",
          "table_changes", "indexes", "old_codes", "terminal")
