"""What the tools for users share: calls of the program, units, images, histories, the manual's tables, and drawings.

Each module reads what a page of docs/ defines, and says which; none writes a file. Python 3 with its standard library alone."""
