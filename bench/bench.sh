#!/usr/bin/env bash
# bench.sh [PROGRAM]: compares PROGRAM (crates/sefcheck/out/sefcheck), a checker that reads standard input
# and prints the seven lines, with the C peer beside this script: executed x86-64
# instructions a byte on accepted files of 1, 2 and 4 MB and how they grow, in
# pieces of 64 KiB, 4 KiB and 512 bytes, and on the worst file; and the times
# over a file of 64 MB. Beside a figure stands its bound, if it has one.
# Callgrind counts the instructions. All takes less than a minute. Programs are for
# x86-64, and on another machine nothing is measured.
# Ends with 0 if the answers are the same, all was measured and every bound is
# kept; with 1 if a bound is broken; else with 2.
set -u
export LC_ALL=C

here=$(cd "$(dirname "$0")" && pwd -P)
program=${1:-$here/../crates/sefcheck/out/sefcheck}
seed=1
sizes="1 2 4"
long=64
runs=5
flags="-std=c11 -Wall -Wextra"

# Pieces of so many bytes: the program's instructions a byte are to be at most these. The last is what it took when it
# stepped byte by byte.
pieces="65536 4096 512"
declare -A most_in_pieces=([65536]=8.5 [4096]=11 [512]=53.6)
most_growth=1      # hundredths between what a further byte takes from 1 to 2 MB, and from 2 to 4
most_ratio=1.4     # of the program's instructions to the peer's
most_time_ratio=1.2

stop() { printf 'bench: %s\n' "$*" >&2; exit 2; }

check_program() {
  [ $# -le 1 ] || stop "usage: bench.sh [PROGRAM]"
  [ -f "$program" ] && [ -x "$program" ] || stop "$program: no such program"
  case $program in */*) ;; *) program=./$program ;; esac
  [ "$(head -c 2 "$program" | tr -d '\0')" != '#!' ] || stop "$program is a script: name the binary, or the shell is measured"
}

check_machine() {
  [ "$(uname -m)" = x86_64 ] || stop "programs are for x86-64, and this machine is $(uname -m)"
  command -v valgrind > /dev/null || stop "valgrind is missing: install it with 'apt-get install valgrind' (or dnf, pacman)"
}

# A string move is one instruction, but callgrind counts each byte of it: so the C library is told to copy by vector moves, each of which counts.
vector_moves="GLIBC_TUNABLES=glibc.cpu.x86_rep_movsb_threshold=0x10000000:glibc.cpu.x86_rep_stosb_threshold=0x10000000"

counted() { # counted WORDS..: executed instructions of a program whose answer goes to counted.out
  env "$vector_moves" valgrind --tool=callgrind --callgrind-out-file=/dev/null --log-file="$dir/log" "$@" > "$dir/counted.out" 2> /dev/null
  sed -n 's/.*Collected : \([0-9]*\).*/\1/p' "$dir/log"
}

build() {
  cc $flags -O3 -o "$dir/peer" "$here/peer.c" || stop "the peer does not build"
  cc $flags -O3 -DBYTE_BY_BYTE -o "$dir/stepper" "$here/peer.c" || stop "the stepping peer does not build"
  cc $flags -O2 -o "$dir/make_file" "$here/make_file.c" || stop "make_file does not build"
}

# Files are called by their MB, and worst.

file() { printf '%s/%s.sef' "$dir" "$1"; } # file NAME

bytes() { wc -c < "$(file "$1")" | tr -d ' '; } # bytes NAME

make_files() {
  local mb
  for mb in $sizes $long; do
    "$dir/make_file" "$seed" "${mb}000000" > "$(file "$mb")" || stop "the file of $mb MB can't be made"
  done
  "$dir/make_file" "$seed" 1000000 worst > "$(file worst)" || stop "the worst file can't be made"
}

check_answers() {
  local name size
  for name in $sizes $long worst; do
    "$dir/peer" < "$(file "$name")" > "$dir/answer.$name"
    grep -qx 'result=accepted' "$dir/answer.$name" || stop "the peer refuses the file $name"
    same_answer "$name"
  done
  for size in $pieces; do
    same_answer 1 --pieces "$size"
  done
  printf 'answers: program and peer print the same seven lines of files of %s MB and of the worst file, the program also in pieces of %s bytes\n' \
    "$(list $sizes $long)" "$(list $pieces)"
}

same_answer() { # same_answer NAME WORDS..: the program's, asked with these words
  local name=$1
  shift
  "$program" "$@" < "$(file "$name")" > "$dir/program.out" 2> "$dir/program.err"
  cmp -s "$dir/program.out" "$dir/answer.$name" ||
    stop "different answers on the file $name: program $* $(show program.out), peer $(show "answer.$name")"
}

show() { tr '\n' ' ' < "$dir/$1" | cut -c 1-200; } # show FILE

list() { printf '%s' "$1"; shift; [ $# -eq 0 ] || printf ', %s' "$@"; } # list WORDS..

# Figures, and whether they keep their bounds.

quotient() { awk -v a="$1" -v b="$2" 'BEGIN { printf "%.3f", a / b }'; } # quotient A B

bound() { # bound VALUE MOST: what stands beside the value; a broken one is written down
  if awk -v value="$1" -v most="$2" 'BEGIN { exit !(value <= most) }'; then
    printf ' (at most %s: kept)' "$2"
  else
    printf ' (at most %s: BROKEN)' "$2"
    echo >> "$dir/broken"
  fi
}

count() { # count NAME WORDS..: executed instructions on this file
  local found
  found=$(counted "${@:2}" < "$(file "$1")")
  cmp -s "$dir/counted.out" "$dir/answer.$1" || stop "${*:2} gives another answer where it is counted"
  [ -n "$found" ] || stop "no count for ${*:2}"
  printf '%s' "$found"
}

count_sizes() { # lines: MB bytes program peer
  local mb of_program of_peer
  for mb in $sizes; do
    of_program=$(count "$mb" "$program") || exit 2
    of_peer=$(count "$mb" "$dir/peer") || exit 2
    printf '%s %s %s %s\n' "$mb" "$(bytes "$mb")" "$of_program" "$of_peer"
  done
}

whole_files() {
  local mb length of_program of_peer ratio
  count_sizes > "$dir/counts" || exit 2
  while read -r mb length of_program of_peer; do
    ratio=$(quotient "$of_program" "$of_peer")
    printf 'file of %s MB, %s bytes: program %s a byte, peer %s, ratio of program to peer %s%s\n' "$mb" "$length" \
      "$(quotient "$of_program" "$length")" "$(quotient "$of_peer" "$length")" "$ratio" "$(bound "$ratio" "$most_ratio")"
  done < "$dir/counts"
}

further() { # further COLUMN: what each further byte takes, from 1 to 2 MB and from 2 to 4, and how many hundredths these are apart
  awk -v column="$1" '
    NR > 1 { each[NR] = ($column - before) / ($2 - length_before) }
    { before = $column; length_before = $2 }
    END { apart = 100 * (each[3] / each[2] - 1); printf "%.3f %.3f %.2f", each[2], each[3], apart < 0 ? -apart : apart }' "$dir/counts"
}

growth() {
  local name column first second apart
  for name in program peer; do
    [ "$name" = program ] && column=3 || column=4
    read -r first second apart <<< "$(further "$column")"
    printf 'growth of the %s: each further byte takes %s from 1 to 2 MB and %s from 2 to 4 MB, apart by %s%%' "$name" "$first" "$second" "$apart"
    [ "$name" = program ] && bound "$apart" "$most_growth"
    echo
  done
}

in_pieces() {
  local size counts each
  for size in $pieces; do
    counts=$(count 1 "$program" --pieces "$size") || exit 2
    each=$(quotient "$counts" "$(bytes 1)")
    printf 'file of 1 MB in pieces of %s bytes: program %s a byte%s\n' "$size" "$each" "$(bound "$each" "${most_in_pieces[$size]}")"
  done
}

worst_file() { # most of it is stepped byte by byte: so the peer is also held to that, as the like to compare with
  local length of_program of_peer steps
  length=$(bytes worst)
  of_program=$(count worst "$program") || exit 2
  of_peer=$(count worst "$dir/peer") || exit 2
  steps=$(count worst "$dir/stepper") || exit 2
  printf 'worst file, %s bytes: program %s a byte, peer %s, ratio of program to peer %s; peer stepping byte by byte %s, ratio of program to it %s\n' \
    "$length" "$(quotient "$of_program" "$length")" "$(quotient "$of_peer" "$length")" "$(quotient "$of_program" "$of_peer")" \
    "$(quotient "$steps" "$length")" "$(quotient "$of_program" "$steps")"
}

instructions() {
  echo 'executed instructions, counted by callgrind:'
  whole_files
  growth
  in_pieces
  worst_file
}

seconds() { # seconds COMMAND: of processor time over the long file
  local TIMEFORMAT='%U %S'
  { time "$1" < "$(file "$long")" > /dev/null 2> /dev/null; } 2>&1 | awk '{ print $1 + $2 }'
}

time_all() { # lines: program peer, taken in turns
  local run
  for run in $(seq "$runs"); do
    printf '%s %s\n' "$(seconds "$program")" "$(seconds "$dir/peer")"
  done
}

times() {
  local of_program of_peer ratio
  read -r of_program of_peer <<< "$(time_all | awk 'NR == 1 || $1 < p { p = $1 } NR == 1 || $2 < q { q = $2 } END { print p, q }')"
  ratio=$(quotient "$of_program" "$of_peer")
  printf 'times over %s MB, best of %s: program %s s, peer %s s, ratio of program to peer %s%s\n' \
    "$long" "$runs" "$of_program" "$of_peer" "$ratio" "$(bound "$ratio" "$most_time_ratio")"
}

check_program "$@"
check_machine
dir=$(mktemp -d) || stop "no place for files"
trap 'rm -rf "$dir"' EXIT
build
make_files
check_answers
instructions
times
[ ! -e "$dir/broken" ] || { echo "bench: $(wc -l < "$dir/broken") bounds are broken"; exit 1; }
echo "bench: every bound is kept"
