"""fdb: framedbg at a prompt, in the words of gdb and rr."""
