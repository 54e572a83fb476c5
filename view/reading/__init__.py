"""The inputs of a call: its words, the engine's answers, and files.

In come the words of the command line (calls.py, by the options of settings.py) and the files that they name, whose kind their first
bytes say (file_kinds.py). `predator native` records a program of this machine (recording.py). A file that is a pipe is copied, as it is
read several times (pipes.py).

engine.py calls the proved program, and passes.py has it read a trace once for each count. Out go the texts that it prints, parsed:
`Report`, `Misses`, `Blame`, `Explained`, `Placed` (reports.py). trace_files.py reads from a trace itself which hart uses which word;
trace_prefix.py cuts the first part of a long trace."""
