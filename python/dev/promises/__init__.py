"""The list of promises: what each public function of each crate promises, a line for each clause, with a hash of all that it means.

    tools/promises            writes docs/promises.txt
    tools/promises --check    compares it with the crates, and prints each line that differs

A clause speaks of definitions, and these of others: of types, with their models and invariants, of traits, with the clauses of their
methods, and of constants. Its hash changes if any of them does, however far down. It does not change with the layout, a comment, the
notation of a number, the name of a bound variable, or the name and the place of a definition. It does change with the name of a type, a
trait, a field, a constructor or an implicit argument, since callers write these.

Private functions, and `impl`s for types that no other crate sees, have no line. Whatever this tool does not know it refuses, with the
file and the line: better to write a definition in another way than to miss a change of it.

`scanning` cuts the files into tokens, `definitions` reads those of specs/ and `sources` those of src/, `terms` finds out what each name
in a term is, `tree` which definition a name of another file is, `meanings` what an item or a clause means, `hashes` makes the hashes,
and `listing` the text.
"""
