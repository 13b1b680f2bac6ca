#!/usr/bin/env bash
# Asks rtfilter: ask.sh SOCKET LINE.. prints the boxes of each line's answer, and how many there were.
# It needs nc of Debian's netcat-openbsd.
coproc CONNECTION { exec nc -U "$1"; }
shift
for line; do
  printf '%s\n' "$line" >&"${CONNECTION[1]}"
  # A box is an id and a score, which may be too long for $((..)); the last line of an answer begins otherwise.
  while IFS= read -r reply <&"${CONNECTION[0]}" || { echo 'the connection has ended' >&2; exit 1; }; do
    printf '%s\n' "$reply"
    case $reply in 'ok '* | 'error '*) break ;; esac
  done
done
