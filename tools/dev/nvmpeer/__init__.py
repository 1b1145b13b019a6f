"""The program once more, in Python, written from the pages and not from its code: so that both can be compared to the byte.

It shares no line with the tools either. It is slow and keeps all in memory, and serves no callers in threads."""
