"""What a refusal means for the file at hand: a module for each kind of answer.

`tokens` explains a text that isn't read, `file_faults` and `sort_faults` a file that isn't well
formed, `limits` a limit, `steps`, `computed` and `sides` a step that is no instance, `ends` the
rest; `mending` looks for a small change by which a step is one. They stand on `source` (where
things are in the file), `rows` (the rules as the manual writes them), `comparing` (where a step
leaves its rule) and `case` (a step with what it cites).
"""
