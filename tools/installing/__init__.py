"""What `tools/install` puts in place: placing.py puts it there; manuals.py makes manual pages of the documents, roff.py
writes them; completions.py makes completions of the command line; units/ has units for systemd."""
