"""A second reading of the language, in plain Python, written from docs/LANGUAGE.md and
docs/RULES.md alone.

Nothing of it comes from the proved program, so the two can be compared: `requests.answer` gives
what the program has to print.
"""
