"""`terminates FILE..`: what the command claims of programs, as people read it. docs/TERMINATES.md has a run of each feature."""
import os
import sys

from program import main

# As a shell tells of a program that a signal ended: that nobody reads any more, and an interruption.
CLOSED, INTERRUPTED = 141, 130

if __name__ == "__main__":
    for stream in (sys.stdout, sys.stderr):
        stream.reconfigure(errors="backslashreplace")
    try:
        sys.exit(main(sys.argv[1:]))
    except BrokenPipeError:
        os.dup2(os.open(os.devnull, os.O_WRONLY), sys.stdout.fileno())
        sys.exit(CLOSED)
    except KeyboardInterrupt:
        sys.exit(INTERRUPTED)
