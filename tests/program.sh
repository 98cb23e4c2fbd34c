#!/usr/bin/env bash
# The program merge, run as it is: what it prints for trains that come by a pipe, by a file and in pieces. The proofs give the line for what
# was read; this tries what they leave to the program: reading to the end or to the 16,001st byte, and writing the whole line. The program
# merge_parked differs in its mode alone. And the command ./run, which gives either the bytes of files.
# The last line is 'N passed, M failed'; the status is 0 only where M is 0.
set -u
cd "$(dirname "$0")/.." || exit 1
program=crates/merge/out/merge
parked=crates/merge_parked/out/merge_parked
passed=0
failed=0
wanted=$(mktemp) || exit 1
printed=$(mktemp) || exit 1
trap 'rm -f "$wanted" "$printed"' EXIT

# proves and builds the programs and what they are made of, where that has changed since
built() (cd "crates/$1" && rt run </dev/null && [ -x "out/$1" ])
if ! built merge || ! built merge_parked; then
  echo "FAILED: the programs were not built"
  echo "0 passed, 1 failed"
  exit 1
fi

# check WHAT LINE [COMMAND..]: standard input goes to the program, or to the command, which must print this line, its line feed too, and
# nothing else
check() {
  local what=$1 line=$2
  shift 2
  [ $# -gt 0 ] || set -- "$program"
  printf '%s\n' "$line" >"$wanted"
  "$@" >"$printed"
  if cmp -s "$printed" "$wanted"; then
    passed=$((passed + 1))
    echo "ok: $what"
  else
    failed=$((failed + 1))
    echo "FAILED: $what: wanted $(head -c 60 "$wanted"), printed $(head -c 60 "$printed")"
  fi
}

# sheet TYPE: the sheet of one column v of the type with this code, as printf takes it
sheet() { printf "\\x02\\x01\\x00\\x04\\x01\\x00v$1"; }

# long BYTES: a sheet of one Null column, whose name fills it up to so many bytes: 7 are not the name's
long() {
  local name=$(($1 - 7))
  printf '\x02\x01\x00\x04'
  printf "\\x$(printf %02x $((name % 256)))\\x$(printf %02x $((name / 256)))"
  head -c "$name" /dev/zero | tr '\0' a
  printf '\x00'
}

# in_hex: standard input in lower-case hex
in_hex() { od -An -v -tx1 | tr -d ' \n'; }

check "P3: Null, then Int32" "0 0 0201000501007604" < <(sheet '\x00'; sheet '\x04')
check "P1: no bytes" "0 0 00" </dev/null
check "one sheet" "0 0 0201000401007604" < <(sheet '\x04')
check "in two pieces, inside a sheet" "0 0 0201000501007604" < <(sheet '\x00'; printf '\x02\x01'; sleep 0.2; printf '\x00\x04\x01\x00v\x04')
check "byte by byte" "0 0 0201000401007604" < <(for b in 02 01 00 04 01 00 76 04; do printf "\\x$b"; sleep 0.02; done)
check "a clash: Int8, then Int16" "22 1 -" < <(sheet '\x02'; sheet '\x03')
check "a broken sheet: it ends inside its name" "1 6 -" < <(printf '\x02\x01\x00\x04\x01\x00')
check "a broken second sheet: an unknown code" "2 15 -" < <(sheet '\x00'; sheet '\x29')
check "256 sheets" "0 0 00" < <(head -c 256 /dev/zero)
check "257 sheets" "33 256 -" < <(head -c 257 /dev/zero)
check "16,000 bytes" "0 0 $(long 16000 | in_hex)" < <(long 16000)
check "16,000 bytes in two pieces" "0 0 $(long 16000 | in_hex)" < <(long 16000 | head -c 9000; sleep 0.2; long 16000 | tail -c 7000)
check "16,001 bytes" "35 0 -" < <(long 16001)
check "16,001 bytes in two pieces" "35 0 -" < <(long 16001 | head -c 16000; sleep 0.2; printf '\x00')
check "more than a buffer of bytes" "35 0 -" < <(head -c 1000000 /dev/zero)

check "P5: Null, then an ordered dictionary" "20 1 -" < <(cat examples/parked.sheet examples/ordered.sheet)
check "P5, parked log first" "0 0 02010007010076220218" "$parked" < <(cat examples/parked.sheet examples/ordered.sheet)
check "16,001 bytes, parked log first" "35 0 -" "$parked" < <(long 16001)

check "./run: the stored example is P3" "0 0 0201000501007604" ./run </dev/null
check "./run: files, P5" "20 1 -" ./run examples/parked.sheet examples/ordered.sheet </dev/null
check "./run: files, P5 parked log first" "0 0 02010007010076220218" ./run --parked-first examples/parked.sheet examples/ordered.sheet </dev/null
check "./run: the first log's dictionary number is kept" "0 0 020100150100760700000000000000220218" ./run examples/numbered.sheet examples/parked.sheet </dev/null
check "./run: the first log has no dictionary number" "0 0 02010005010076220218" ./run examples/parked.sheet examples/numbered.sheet </dev/null
check "./run: the stored example, parked log first" "0 0 0201000501007604" ./run --parked-first </dev/null
check "./run: files of the folder that it is called in" "0 0 0201000501007604" env -C examples ../run driven.sheet parked.sheet </dev/null
check "./run: standard input, then a file" "0 0 0201000501007604" ./run - examples/driven.sheet <examples/parked.sheet
# the sheet 00 after the cut one would be taken for its last byte
check "./run: a file that is cut" "1 7 -" ./run <(sheet '') <(printf '\x00') </dev/null
check "./run: a file behind a clash is read" "2 25 -" ./run examples/driven.sheet examples/ordered.sheet <(printf '\x02\x01\x00\x04\x01\x00v\x29') </dev/null

# both WHAT LINE FILE..: ./run on the files must print this line, in either mode
both() {
  local what=$1 line=$2
  shift 2
  check "./run: $what" "$line" ./run "$@" </dev/null
  check "./run --parked-first: $what" "$line" ./run --parked-first "$@" </dev/null
}

# a saved table first, in the place of its logs: the same line, or the same number at a place of the train given
table=$(in_hex <examples/table.sheet)
both "the saved table is what its logs give" "0 0 $table" examples/parked.sheet examples/driven.sheet
both "the saved table alone is itself" "0 0 $table" examples/table.sheet
merged="0 0 02020005010076040401007718"
both "all logs at once" "$merged" examples/parked.sheet examples/driven.sheet examples/newer.sheet examples/driven.sheet
both "the new logs onto the saved table" "$merged" examples/table.sheet examples/newer.sheet examples/driven.sheet
both "a clash, all logs at once" "20 3 -" examples/parked.sheet examples/driven.sheet examples/newer.sheet examples/ordered.sheet
both "the clash onto the saved table" "20 2 -" examples/table.sheet examples/newer.sheet examples/ordered.sheet
check "./run: a cut log, all logs at once" "1 23 -" ./run examples/parked.sheet examples/driven.sheet <(sheet '') </dev/null
check "./run: the cut log onto the saved table" "1 15 -" ./run examples/table.sheet <(sheet '') </dev/null
# the program's own limit: all logs at once may be above it where the table and the new log are not
both_columns=$({ printf '\x02\x02\x00'; long 8000 | tail -c +4; printf '\x04\x01\x00v\x04'; } | in_hex)
check "./run: all logs at once above 16,000 bytes" "35 0 -" ./run <(long 8000) <(long 8000) examples/driven.sheet </dev/null
check "./run: the new log onto their table" "0 0 $both_columns" ./run <(long 8000) examples/driven.sheet </dev/null

# quiet WHAT: the program ran and had no line to print, or could not print it: nothing is printed, and standard error says why
quiet() {
  if [ ! -s "$printed" ] && [ -s "$wanted" ]; then
    passed=$((passed + 1))
    echo "ok: $1"
  else
    failed=$((failed + 1))
    echo "FAILED: $1: printed $(head -c 60 "$printed"), said $(head -c 60 "$wanted")"
  fi
}

"$program" <crates >"$printed" 2>"$wanted"
quiet "an input that cannot be read: a folder"
: >"$printed"
"$program" </dev/null >/dev/full 2>"$wanted"
quiet "a line that cannot be written: a full device"

./run examples/parked.sheet examples/missing.sheet >"$printed" 2>"$wanted" </dev/null && echo said >"$printed"
quiet "./run: a file that is missing, which ends with a status of its own"

echo "$passed passed, $failed failed"
[ "$failed" -eq 0 ]
