"""The simulator once more, in plain Python, for machines on which the proved program can't run. It is not proved.

Written from docs/MACHINE.md and docs/CONSOLE.md alone, in their terms, and without the tools' own table of instructions: the tests
compare it with the proved program and with the tools. `places` numbers the places of the machine, `instructions` has the steps of a
processor, `devices` those of the reader and the printer, `machine` the actions and their undo records, `lines` the console, and
`program` the words, the files and the statuses.
"""
