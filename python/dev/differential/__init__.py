"""Tries `tml` from outside: draws cases, runs the program over them and compares what it answers with the reference.

- Cases: `cases` says what one is; `dates`, `nets`, `documents`, `faulty`, `mutated` and `hostile` draw documents, `words` draws
  questions about them, `devices` files and outputs that fail, and `evidence` what `verify`, `renew` and `join` read. `drawing` draws a
  case of any of these.
- Running: `programs` runs a process for each case, `rows` very many cases in one process, and `libraries` asks a library in a process of
  its own, which is `answering`. `tables` reads the table of cases that `command_rows` has.
- Comparing: `comparing` asks the reference, and `trees`, `datetimes` and `reals` are further referees.
- `reducing` makes a case that differs small, `keeping` keeps it in a folder, and `trying` and `commands` put all together.

Drawing never runs a program, and is decided by a `random.Random` alone.
"""
