"""A model of docs/MEANING.md that reads the bytes of a file itself, written from the definitions there and from the
standards, and not from the code of the crates: a function here for a definition there. It is as simple as the
definitions are, and keeps no more than what makes it fast enough for small files. It goes through a span from one border
of ranges and rows to the next, and not from address to address. What it leaves out is `find_location`.

`python3 tests/model WORD..` runs it as the program `a2l` of these words."""
