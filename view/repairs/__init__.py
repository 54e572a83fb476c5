"""Repairs of objects that threads contend for.

In come the ranked objects of a `View`, the types of the program and who uses which word of the trace. subjects.py selects the objects that
can change, with those that share their lines. units.py enumerates what can change by itself in these, and candidates.py makes a repair.py
of several units or of another order of words; groupings.py groups the fields of a record, and layouts.py computes where each byte lies
then, as a compiler lays them out. reassignment.py gives elements to other threads. search.py has layouts counted, alone and together, and
all words apart by their threads at the end.

trials.py moves the recorded accesses accordingly and has the engine count their misses again. trial_results.py keeps the results and
words them. patches.py turns the best change of a declaration into a diff, and call_patch.py joins the diffs of a call.

Out go a sentence for each object (advice.py where nothing can be tried), the counts before and after, and a patch."""
