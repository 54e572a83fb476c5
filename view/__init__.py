"""The package of `predator view`: from what the engine prints, or a trace, to objects, fields, source lines and repairs.

main.py runs a call through the packages in this order:

    reading/   takes the words of a call, has the engine run or replay, and reads reports, traces and address maps
    names/     names addresses and instructions: variables, fields, source lines, functions of stripped programs
    model/     groups lines by objects, ranks these, and compares two views; `View` holds all that a call found
    repairs/   enumerates changes to declarations, tries each on the trace, and writes advice and patches
    output/    writes the screen, pages, JSON and SARIF

Each number about sharing comes from the engine; nothing here counts a miss or an invalidation. faults.py has the error of a call."""
