#!/bin/sh
# Gives the program crate `replay` its lists: what it is asked (stdin) and what it must answer (stdout).
# The answers are those of replay.txt, rules.txt and shown.txt, never the program's own.
cd "$(dirname "$0")" || exit 1
cat replay.txt rules.txt shown.txt > ../crates/replay/stdout
sed '/^#/!s/ = .*//' ../crates/replay/stdout > ../crates/replay/stdin
