#!/usr/bin/env bash
# Builds the program, if it isn't built, and runs it with the words and the input given. With no word it
# plays demo/first.frames and prints the reply.
cd "$(dirname "$0")" || exit 1
program=crates/texd/out/texd
if [ ! -x "$program" ]; then
  (cd crates/texd && rt run -- once < ../../demo/first.frames > out-build.log 2>&1)
  [ -x "$program" ] || { cat crates/texd/out-build.log; exit 1; }
  rm -f crates/texd/out-build.log
fi
if [ $# -eq 0 ]; then
  exec "$program" once < demo/first.frames
fi
exec "$program" "$@"
