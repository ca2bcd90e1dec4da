#!/usr/bin/env bash
# Wraps the text on standard input into a REGION frame with the budget given: demo/frame.sh BUDGET < text
[ $# -eq 1 ] || { echo "usage: demo/frame.sh BUDGET < text" >&2; exit 2; }
text=$(mktemp) && trap 'rm -f "$text"' EXIT
cat > "$text"
printf 'REGION %s %s\n' "$1" "$(wc -c < "$text" | tr -d ' ')"
cat "$text"
