# What the scripts of this folder have in common: the built programs, a folder for their work, and checks. Each check prints
# a line. Source it.
set -u
export LC_ALL=C

top=$(cd "$(dirname "${BASH_SOURCE[0]}")/../.." && pwd)
rolltee=$top/crates/rolltee/out/rolltee
rollplay=$top/crates/rollplay/out/rollplay
# An audit trail, as `"${trail[@]}" daily DIR audit`.
trail=("$rolltee" --direct --sync --whole-lines --suffix log --link latest.log)
work=$(mktemp -d)
out=$work/out
err=$work/err
disk=$work/disk
passed=0
failed=0

finish() {
  cd /
  mountpoint -q "$disk" && umount "$disk"
  rm -rf "$work"
}
trap finish EXIT
trap 'exit 1' INT TERM

# check NAME WANTED GOT
check() {
  if [ "$2" = "$3" ]; then
    passed=$((passed + 1))
    echo "ok $1"
  else
    failed=$((failed + 1))
    printf 'FAILED %s: got %q wanted %q\n' "$1" "$3" "$2"
  fi
}

# skip NAME WHY
skip() {
  echo "skipped $1: $2"
}

# run PROGRAM ARGUMENT..: with this script's input; leaves its status in `status`, and what it writes in $out and $err.
run() {
  timeout 5 "$@" > "$out" 2> "$err"
  status=$?
}

# run_closed STREAMS PROGRAM ARGUMENT..: the same, with these standard streams closed, as 02.
run_closed() {
  local closings= stream
  for stream in 0 1 2; do
    case $1 in *$stream*) closings="$closings $stream>&-" ;; esac
  done
  shift
  run bash -c "exec \"\$@\"$closings" run_closed "$@"
}

# What standard error has, with `@` in place of the title of a log, as `rolltee: DIR/PREFIX: `.
said() {
  sed -E 's/^rolltee: [^ ]*\/[^ ]*: /@/' "$err"
}

# The status, and both streams.
told() {
  echo "$status|$(cat "$out")|$(said)"
}

# The bytes of a file, and whether there is none.
content() {
  if [ -f "$1" ]; then
    echo "[$(cat "$1")]"
  else
    echo "no file"
  fi
}

# Whether two files have the same bytes. `-` is the standard input.
same() {
  cmp -s "$1" "$2" && echo same || echo other
}

lines=$work/lines
printf 'one\ntwo\n' > "$lines"
fifo=$work/fifo
mkfifo "$fifo"

# begin PROGRAM ARGUMENT..: runs it with a pipe as its input, which is 9 here. `end` ends it and leaves its status.
begin() {
  timeout 20 "$@" < "$fifo" > "$out" 2> "$err" &
  running=$!
  exec 9> "$fifo"
}

end() {
  exec 9>&-
  wait "$running"
  status=$?
}

# wait_until COMMAND..: until it succeeds, for two seconds at most.
wait_until() {
  local turn
  for ((turn = 0; turn < 200; turn++)); do
    ! "$@" || return 0
    sleep 0.01
  done
  return 1
}

# How many lines a file has, if there is one.
line_count() {
  if [ -f "$1" ]; then wc -l < "$1"; else echo 0; fi
}

has_lines() {
  [ "$(line_count "$1")" -ge "$2" ]
}

# Whether the program that runs has printed a line like this.
says() {
  grep -q "$1" "$err"
}

# Whether a program is installed; else says that these checks are skipped.
has() {
  command -v "$1" > /dev/null && return
  skip "$2" "no $1"
  return 1
}

# recipe WORDS: a recipe of RUNNING, from the line with these words to the end of its block.
recipe() {
  awk -v words="$1" '!/^    / { found = 0 } /^    / && (found || index($0, words)) { found = 1; print substr($0, 5) }' \
    "$top/docs/RUNNING.md"
}

# Ends the script, with the count of its checks.
conclude() {
  echo "$passed passed, $failed failed"
  [ "$failed" = 0 ]
}

for program in "$rolltee" "$rollplay"; do
  check "$(basename "$program") is built" yes "$([ -x "$program" ] && echo yes || echo no)"
done
[ "$failed" = 0 ] || { conclude; exit 1; }
