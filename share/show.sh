# The answer for people (--show): what the program says and what stands in the file at the place that it names, for share/show.awk.

KEPT=67108864 # of standard input or a pipe so many bytes are kept, to show a line of them
SHOWN=64      # so many bytes on each side of the place are looked at
WORD=41       # so many bytes of a field are looked at: one more than are told

bytes() { # bytes FILE FROM COUNT: so many of the file's bytes from this one on, which is counted from 0
  tail -c "+$(($2 + 1))" -- "$1" | head -c "$3"
}

numbers() { od -An -v -tu1 | tr '\n' ' '; } # bytes as numbers, in one line

# begins FILE START END BYTE COUNT: between START and END, where the bytes begin that stand after the last BYTE, or after the COUNT-th
# before that one; START if there are fewer. The search goes back from END, since a file may be long.
begins() {
  local file=$1 start=$2 end=$3 byte=$4 count=$5 room=4096 from found rest
  while :; do
    from=$((end - start > room ? end - room : start))
    found=$(bytes "$file" "$from" "$((end - from))" | tr -d -c "$byte" | wc -c)
    if [ "$found" -gt "$count" ] || [ "$from" -eq "$start" ]; then break; fi
    room=$((room * 16))
  done
  rest=$(bytes "$file" "$from" "$((end - from))" | tr "$byte" '\n' | tail -n "+$((found - count + 1))" | wc -c)
  echo "$((end - rest))"
}

# What stands at the refused place: the bytes around it, where among them the line and the field begin and where the file is refused,
# the line's code, with the byte after it, and the field's bytes. Before the byte that is refused (none, where the file ends too early) each LF ends a line, and a
# field begins after a bar.
place() { # place FILE REFUSAL FIELD BYTE BYTES
  local file=$1 stops=$(($5 - ($2 != 14))) starts at from
  starts=$(begins "$file" 0 "$stops" '\n' 0)
  at=$stops
  if [ "$3" -gt 0 ]; then at=$(begins "$file" "$starts" "$stops" '|' 0); fi
  printf 'word=%s\n' "$(bytes "$file" "$at" "$((stops - at < WORD ? stops - at : WORD))" | numbers)"
  if [ "$4" -gt 0 ]; then at=$((at + $4 - 1)); fi
  from=$((at - starts > SHOWN ? at - SHOWN : starts))
  printf 'text=%s\n' "$(bytes "$file" "$from" "$((at - from + SHOWN + 3))" | numbers)"
  printf 'starts=%s\nat=%s\nstops=%s\n' "$((starts - from))" "$((at - from))" "$((stops - from))"
  printf 'code=%s\n' "$(bytes "$file" "$((starts + 1))" 5 | numbers)"
}

# What the 9900 lines state: of each its number, the code and what is stated. They are among the lines of block 9, right before 9999.
statements() { # statements FILE LINE BYTES LINES: the refused line, the bytes judged, the lines of block 9
  local starts from
  starts=$(begins "$1" 0 "$(($3 - 1))" '\n' 0)
  from=$(begins "$1" 0 "$starts" '\n' "$4")
  bytes "$1" "$from" "$((starts - from))" |
    LC_ALL=C awk -F '|' -v OFS='\t' -v before="$(($2 - $4 - 1))" '$2 == "9900" { print "stated", before + NR, $3, $4 }'
}

copy= # where what can be read only once is kept
keep() {
  [ -z "$copy" ] || return 0
  copy=$(mktemp 2> /dev/null) || { copy=/dev/null; return 0; } # then nothing is kept
  trap 'rm -f -- "$copy"' EXIT
}

# The program's lines of an input that can be read only once, whose beginning is kept. That it can't be kept is no trouble, that it can't
# be read is.
kept() {
  (set -o pipefail; { head -c "$KEPT" | { tee -- "$copy" 2> /dev/null || true; } && cat; } | run)
}

# Why a line can't be shown: fewer bytes are at hand than were judged.
hidden() { # hidden FILE BYTES
  local size
  size=$(stat -L -c %s -- "$1")
  if [ "$size" -ge "$2" ]; then return 1; fi
  if [ "$1" != "$copy" ]; then echo hidden=changed; return 0; fi
  if [ "$size" -eq "$KEPT" ]; then echo hidden=pipe; else echo hidden=room; fi
  echo "kept=$KEPT"
}

beside() { # beside FILE LINES: what stands in the file at the place that the program's lines name
  local name number
  local -A value
  while IFS='=' read -r name number; do value[$name]=$number; done <<< "$2"
  hidden "$1" "${value[bytes]}" && return
  place "$1" "${value[refusal]}" "${value[field]}" "${value[byte]}" "${value[bytes]}"
  [ "${value[refusal]}" -ne 23 ] || statements "$1" "${value[line]}" "${value[bytes]}" "${value['block 9']}"
}

read_once() { # read_once FILE: it can't be read again: standard input, a pipe, a file without a size, as those of /proc
  [ "$1" = - ] || { [ -e "$1" ] && [ ! -d "$1" ] && { [ ! -f "$1" ] || [ ! -s "$1" ]; }; }
}

before= # the status of the file before
show_answer() { # show_answer FILE; a refused file's answer stands apart from others
  local lines status source=$1 reader=run
  if read_once "$1"; then
    keep
    source=$copy reader=kept
  fi
  lines=$(answer "$1"); status=$?
  if [ "$status" -gt 1 ]; then return 2; fi
  [ -z "$before" ] || [ "$before$status" = 00 ] || echo
  before=$status
  { printf '%s\n' "$lines"; [ "$status" -eq 0 ] || beside "$source" "$lines"; } |
    LC_ALL=C SHOW_NAME=$1 SHOW_LANGUAGE=$language SHOW_LETTERS=$letters SHOW_BLOCKS=$blocks awk -f "$shared/show.awk" \
      table=words "$shared/words.tsv" table=refusals "$shared/refusals.tsv" table=rows "$shared/rows.tsv" \
      table=fields "$shared/fields.tsv" table=answer - || return 2
  return "$status"
}

case $(of_locale LC_CTYPE) in *[Uu][Tt][Ff]8*|*[Uu][Tt][Ff]-8*) letters=yes ;; *) letters= ;; esac
