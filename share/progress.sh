# How far a long file has been read, on a terminal: a line on standard error that is gone when the answer comes.

LONG=64000000 # a file of more bytes is long: 64 MB

is_long() { # is_long FILE: a long file, while standard error is a terminal
  [ -t 2 ] && [ -f "$1" ] && [ "$(stat -L -c %s -- "$1")" -gt "$LONG" ]
}

# The program reads descriptor 3 as it was opened here, so its place in the file is ours too.
position() {
  local name value
  while read -r name value; do if [ "$name" = pos: ]; then echo "$value"; fi; done < "/proc/$BASHPID/fdinfo/3"
}

microseconds() { # to the second alone in a bash before 5.0
  local now=${EPOCHREALTIME:-$SECONDS.000000}
  echo "${now/[.,]/}"
}

# One line of the terminal, and never two: what is wider is cut.
width() {
  local rows columns=
  read -r rows columns < <(stty size <&2 2> /dev/null) || columns=0
  if [ "${columns:-0}" -gt 1 ] && [ "$columns" -le 60 ]; then echo "$((columns - 1))"; else echo 60; fi
}

clear_line() { printf '\r%*s\r' "$(width)" '' >&2; }

progress_line() { # progress_line WORDS SIZE SINCE: the words with the bytes read, the size, the share, the rate and the time left
  local words=$1 size=$2 read time left=- width
  read=$(position)
  time=$(($(microseconds) - $3 + 1))
  if [ "$read" -gt 0 ]; then left=$(((size - read) / (read * 1000 / time + 1) / 1000)); fi
  words=${words/'{1}'/$((read / 1000000))}
  words=${words/'{2}'/$((size / 1000000))}
  words=${words/'{3}'/$((100 * read / size))}
  words=${words/'{4}'/$((read / time))} # bytes a microsecond are MB a second
  words=${words/'{5}'/$left}
  width=$(width)
  printf '\r%-*.*s' "$width" "$width" "$words" >&2
}

# Twice a second, until it is stopped, or the command is gone.
progress() { # progress WORDS SIZE SINCE
  while sleep 0.5 && kill -0 "$$" 2> /dev/null; do progress_line "$@"; done
}

with_progress() { # with_progress FILE COMMAND..: the command reads the file
  local file=$1 size words since watch status=2
  shift
  size=$(stat -L -c %s -- "$file")
  words=$(words progress)
  since=$(microseconds)
  {
    progress_line "$words" "$size" "$since"
    progress "$words" "$size" "$since" > /dev/null < /dev/null &
    watch=$!
    trap 'clear_line; trap - INT; kill -INT "$BASHPID"' INT
    "$@" <&3; status=$?
    trap - INT
    kill "$watch"; wait "$watch" 2> /dev/null || true
    clear_line
  } 3< "$file"
  return "$status"
}
