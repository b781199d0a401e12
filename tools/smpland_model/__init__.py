"""The reference of `smpland -`: a controller that reads one JSON object a line and replies one line each.

`lines` reads a line and finds its faults, `numbering` turns names into the numbers of `driving_model`, `controller`
is the controller of `driving_model` over documents that change, `messages` writes what goes out, `asking` answers the
lines that change nothing, and `session` puts them together. docs/SMPLAND.md tells every line.

It shares the tools' reader: it reads lines, documents and plans by `smplan.reading` and `smplan.faults`, and takes what
may be opened and begun from `smplan.placement` and `smplan.verdict`. A fault there is one of the tools and of the
reference at once, and shows only where the two are compared with a program.
"""
