"""What a call found, from lines to objects.

In come a report, its misses and what explains its lines (`view.reading`), and names (`view.names`). objects.py groups the lines by the
object that they belong to (object_keys.py has its key), and splits each into words and their owners. predicted_lines.py chooses the
predicted lines that say more than the observed ones. instruction_pairs.py says what two instructions do to a line; foreign_objects.py,
which objects aren't the program's own.

miss_rates.py puts misses in relation to instructions, by the bands of a study (rate_bands.py). comparison.py compares two views, and
line_borders.py finds the objects of a sweep's totals. stack_overflow.py and waiting_harts.py say how a run ended. trace_uses.py has the
trace read for who uses which words, byte_sharing.py has lines counted by bytes, and fine_grain.py runs a guest in short turns beside.
stack_places.py says where stacks lie, and stack_variables.py has lines list their variables.

Out goes `View` (view.py): the ranked objects with all that the outputs print. explained_lines.py, object_fixes.py, word_owners.py and
worst_line.py say more of one object."""
