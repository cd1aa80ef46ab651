#!/bin/sh
# Has the compiler read all must-fail edits, those that the gate leaves out too, over the sources as
# they are: one that doesn't apply or compile would not reach the prover, and show nothing.
exec "$(dirname "$0")/../dev/edits.py" --compiled
