"""Tools for keepers: they write scripts for tt_archive and read its replies.

Nothing here is proved and nothing here is trusted: what the archive holds and answers is the
program's. The formats are those of docs/formats.md.
"""
