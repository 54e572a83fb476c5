"""Names for addresses, words and instructions.

In come a program's file and the addresses of a report. fields.py reads types and variables by DWARF, in which debug_places.py finds
addresses; source_lines.py has llvm-symbolizer (symbolizer.py) find files and lines. native.py does both for a program of this machine, by
the address map of its trace. frames.py says where the variables of functions lie on stacks; control_flow.py, what runs before an
instruction (disassembly.py prints code).

Where a program is stripped, x86_image.py decodes what it loads, and function_ranges.py finds its functions. go.py reads the table that
Go's runtime keeps; rust.py finds the places of panics; cpp.py, with cpp_assertions.py and cpp_classes.py, finds assertions and
virtual functions of C and C++. demangling.py shortens symbols.

Out goes `Naming` (naming.py), which answers what an object, a word or an instruction is called. unnamed_memory.py names memory outside
variables and heap blocks by the instructions that use it."""
