"""Programs that do otherwise than framedbg: each runs the real one, and changes its words, its status or what it
says."""
import os

SHELL = """#!/bin/sh
real=REAL
change() { # a word, and what stands for it (of an option for its value, and nothing for both); then the words of the command line
  from=$1; to=$2; shift 2; count=$#; skip=
  for word; do
    if [ -n "$skip" ]; then skip=; [ -z "$to" ] || set -- "$@" "$to"; continue; fi
    case $from in
      --*) if [ "$word" = "$from" ]; then skip=yes; [ -z "$to" ] || set -- "$@" "$word"; else set -- "$@" "$word"; fi ;;
      *) if [ "$word" = "$from" ]; then set -- "$@" "$to"; else set -- "$@" "$word"; fi ;;
    esac
  done
  shift "$count"
  exec "$real" "$@"
}
"""
# what the real program tells a terminal goes through a change, piece by piece
RELAY = """#!/usr/bin/env python3
import os, pty, subprocess, sys
if not os.isatty(2):
    os.execv("REAL", ["REAL", *sys.argv[1:]])
ours, theirs = pty.openpty()
ran = subprocess.Popen(["REAL", *sys.argv[1:]], stderr=theirs)
os.close(theirs)
try:
    while text := os.read(ours, 65536):
        os.write(2, CHANGE)
except OSError:
    pass
sys.exit(ran.wait())
"""


def by_shell(body):
    """A program that is a shell's body; `$real` is the real one there, and `change` runs it with other words."""
    return f"{SHELL}{body}\n"


def by_relay(change):
    """A program that tells a terminal otherwise: an expression over the bytes `text`."""
    return RELAY.replace("CHANGE", change)


def write(path, source, real):
    """A wrong program as a file, round the real one."""
    path.write_text(source.replace("REAL", str(real)))
    os.chmod(path, 0o755)
