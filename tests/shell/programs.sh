#!/usr/bin/env bash
# Runs the built programs as a user does, and compares what they write and how they end. `rt run` in the folder of each
# builds them before. Each check prints a line, and the last line is `N passed, M failed`. It ends within five minutes.
if [ "${1-}" != bounded ]; then exec timeout -k 6 290 bash "$0" bounded; fi
. "$(dirname "${BASH_SOURCE[0]}")/common.sh"

script=$work/script
printf 'rotation never\nprefix app\nstart 1580551260\nput 1580551261 a\n' > "$script"
played=$'open app\nnone ok 1\nfile app 1 a'
streams_closed='0 1 2 01 02 12 012'
# That of CHANGELOG, and the kit's.
version="$(sed -n 's/^## \([0-9.]*\).*/\1/p' "$top/CHANGELOG.md" | head -n 1) (port of tracing-appender 0.2.5; $(rt version | sed 's/ .*//'))"

# ---- installed with their pages

PREFIX=$work/prefix run "$top/install" --help
check 'install --help' "2||usage: [PREFIX=FOLDER] $top/install" "$(told)"
PREFIX=$work/prefix run "$top/install"
check 'install' '0||' "$(told)"
check 'install: the files' 'bin/rolltee share/man/man1/rolltee.1' \
  "$(cd "$work/prefix" && find . -type f | sed 's/^..//' | sort | paste -s -d ' ')"
run "$work/prefix/bin/rolltee" --version
check 'install: rolltee runs' "0|rolltee $version|" "$(told)"
check "README: the kit of $(rt version)" 1 "$(tr -s '\n ' ' ' < "$top/README.md" | grep -cF "\`$(rt version)\`")"
# Each option of --help is in the page, and the other way round.
check 'man/rolltee.1: the options of --help' \
  "$("$rolltee" --help | grep -oE '^ +--[a-z-]+' | tr -d ' ' | sort -u | paste -s -d ' ')" \
  "$(sed -n 's/^\.It Fl -\([a-z-]*\).*/--\1/p' "$top/man/rolltee.1" | sort -u | paste -s -d ' ')"
if has mandoc 'man/rolltee.1: mandoc'; then
  check 'man/rolltee.1: mandoc' '' "$(mandoc -T lint -W warning "$top/man/rolltee.1" 2>/dev/null)"
fi

# ---- standard streams that are closed

# What is written to a closed stream is lost, and nothing is read of one: the log holds the lines alone.
for streams in '' $streams_closed; do
  name="streams closed: ${streams:-none}"
  case $streams in
    *0*) lines_wanted='[]' fault_status=0 ;;
    *) lines_wanted=$'[one\ntwo]' fault_status=1 ;;
  esac
  case $streams in *2*) fault_told= ;; *) fault_told=$'read failed\n@Is a directory (os error 21)' ;; esac
  [ "$fault_status" = 0 ] && fault_told=

  for direct in '' ' --direct'; do
    folder=$work/tee$streams${direct# }
    run_closed "$streams" "$rolltee" $direct never "$folder" app < "$lines"
    check "rolltee$direct, $name" "0||" "$(told)"
    check "rolltee$direct, $name: the log" "$lines_wanted" "$(content "$folder/app")"
    # A folder can be opened as the input, and not be read.
    run_closed "$streams" "$rolltee" $direct never "$folder.fault" app < /
    check "rolltee$direct, $name: no input" "$fault_status||$fault_told" "$(told)"
    check "rolltee$direct, $name: the log of no input" '[]' "$(content "$folder.fault/app")"
  done

  case $streams in *0*) play="2||line 1: fault" ;; *) play="0|$played|" ;; esac
  case $streams in *1*) play=${play/"$played"/} ;; esac
  case $streams in *2*) play=${play/line 1: fault/} ;; esac
  run_closed "$streams" "$rollplay" < "$script"
  check "rollplay, $name" "$play" "$(told)"
done

# Where /dev/null can't be opened, nothing else is.
mkdir "$work/dev"
if unshare -m true 2> "$err"; then
  for program in "rolltee never $work/no_null app" rollplay; do
    set -- $program
    name=$1
    shift
    run unshare -m sh -c 'mount --bind "$1" /dev && shift && exec "$@" 2>&-' sh "$work/dev" "$top/crates/$name/out/$name" "$@" < "$script"
    check "$name, no /dev/null" "1||" "$(told)"
    check "$name, no /dev/null: no folder" "no" "$([ -e "$work/no_null" ] && echo yes || echo no)"
  done
else
  skip "no /dev/null" "$(head -1 "$err")"
fi

# ---- standard streams that are open the wrong way round

# run_turned STREAM PROGRAM ARGUMENT..: the same, with this standard stream open the wrong way round: the input only for
# writing, or an output only for reading.
run_turned() {
  local turned
  case $1 in 0) turned='0> /dev/null' ;; *) turned="$1< /dev/null" ;; esac
  shift
  run bash -c "exec \"\$@\" $turned" run_turned "$@"
}

# Such a stream is no closed one: an input that can't be read is a fault, and so is an output that can't be written.
for stream in 0 1 2; do
  name="stream $stream the wrong way round"
  case $stream in
    0) lines_wanted='[]' tee_told=$'1||read failed\n@Bad file descriptor (os error 9)' play_told='2||read failed' ;;
    1) lines_wanted=$'[one\ntwo]' tee_told='0||' play_told='2||' ;;
    2) lines_wanted=$'[one\ntwo]' tee_told='0||' play_told="0|$played|" ;;
  esac
  for direct in '' ' --direct'; do
    folder=$work/turned$stream${direct# }
    run_turned "$stream" "$rolltee" $direct never "$folder" app < "$lines"
    check "rolltee$direct, $name" "$tee_told" "$(told)"
    check "rolltee$direct, $name: the log" "$lines_wanted" "$(content "$folder/app")"
  done
  run_turned "$stream" "$rollplay" < "$script"
  check "rollplay, $name" "$play_told" "$(told)"
done
# Where errors can't be reported, the status does it.
run_turned 2 "$rolltee" never "$work/turned" app < /
check 'rolltee, stream 2 the wrong way round: no input' '1||' "$(told)"
run_turned 2 "$rollplay" < "$lines"
check 'rollplay, stream 2 the wrong way round: a fault' '2||' "$(told)"
for name in rolltee rollplay; do
  case $name in rollplay) failed_print=2 ;; *) failed_print=1 ;; esac
  run_turned 1 "$top/crates/$name/out/$name" --help < /dev/null
  check "$name --help, stream 1 the wrong way round" "$failed_print||" "$(told)"
done

# ---- options

for name in rolltee rollplay; do
  program=$top/crates/$name/out/$name
  case $name in
    rolltee) usage='usage: rolltee ROTATION DIR PREFIX' failed_print=1 ;;
    rollplay) usage='usage: rollplay < SCRIPT' failed_print=2 ;;
  esac
  run "$program" --help < /dev/null
  help=$(told)
  check "$name --help: status" 0 "$status"
  check "$name --help: at most 40 lines of 80 characters" 0 "$(awk 'NR > 40 || length > 80' "$out" | wc -l)"
  check "$name --help: errors" '' "$(cat "$err")"
  for words in "$usage" '--version' 'Status: 0 ' 'INT or TERM'; do
    check "$name --help: $words" yes "$(grep -qF -e "$words" "$out" && echo yes || echo no)"
  done
  run "$program" -h < /dev/null
  check "$name -h" "$help" "$(told)"
  run "$program" here --help -x < /dev/null
  check "$name here --help -x" "$help" "$(told)"
  run "$program" --version < /dev/null
  check "$name --version" "0|$name $version|" "$(told)"
  check "$name --version: 80 characters" 0 "$(awk 'length > 80' "$out" | wc -l)"
  for option in -x --helpme -; do
    case $name in rollplay) unknown= ;; *) unknown="rolltee: $option: unknown option"$'\n' ;; esac
    run "$program" "$option" "$work/option" app --help < /dev/null
    check "$name $option" "2||$unknown$usage" "$(told)"
  done
  check "$name: options make no folder" no "$([ -e "$work/option" ] && echo yes || echo no)"
  for option in --help --version; do
    timeout 5 "$program" "$option" > /dev/full 2> "$err" < /dev/null
    check "$name $option > /dev/full" "$failed_print|" "$?|$(cat "$err")"
  done
done

for word in minutely hourly daily weekly never --no-wait \
  "(trap '' INT TERM HUP QUIT; exec rolltee" "  trap '' INT TERM HUP QUIT" '  exec rolltee'; do
  run "$rolltee" --help < /dev/null
  check "rolltee --help: $word" yes "$(grep -qF -e "$word" "$out" && echo yes || echo no)"
done

run "$rolltee" -- never "$work/dashes" -x < "$lines"
check 'rolltee -- never DIR -x' '0||' "$(told)"
check 'rolltee -- never DIR -x: the log' $'[one\ntwo]' "$(content "$work/dashes/-x")"
run "$rolltee" never -- "$work/dashes" -- < "$lines"
check 'rolltee never -- DIR --' '0||' "$(told)"
check 'rolltee never -- DIR --: the log' $'[one\ntwo]' "$(content "$work/dashes/--")"
run "$rolltee" -- --help < "$lines"
check 'rolltee -- --help' \
  $'2||usage: rolltee ROTATION DIR PREFIX\nrolltee: three words are wanted, ROTATION DIR PREFIX, and not 1' "$(told)"
run "$rolltee" never '' app < "$lines"
check 'rolltee, an empty folder' $'2||usage: rolltee ROTATION DIR PREFIX\nrolltee: DIR is empty' "$(told)"

# A word that is not UTF-8 is named, also after `--`.
for words in "never $work/switch" "-- never"; do
  run "$rolltee" $words $'caf\xe9' < "$lines"
  check "rolltee ${words//$work/} and a word that is not UTF-8" $'2||rolltee: caf\xef\xbf\xbd: not UTF-8' "$(told)"
done

# Options may be anywhere before `--`.
for words in "--no-wait never $work/switch app" "never --no-wait $work/switch app" "never $work/switch app --no-wait" \
  "--no-wait -- never $work/switch app"; do
  rm -rf "$work/switch"
  run "$rolltee" $words < "$lines"
  check "rolltee ${words//$work/}" '0||' "$(told)"
  check "rolltee ${words//$work/}: the log" $'[one\ntwo]' "$(content "$work/switch/app")"
done
rm -rf "$work/switch"
# What is wrong is named.
usage='usage: rolltee ROTATION DIR PREFIX'
while IFS='|' read -r words wanted; do
  run "$rolltee" $words < "$lines"
  check "rolltee ${words//$work/}" "2||$(printf '%b' "$wanted" | sed 's/^-/rolltee: -/')" "$(told)"
done << END
-- --no-wait $work/switch app|$usage\\nrolltee: '--no-wait' is no rotation: take minutely, hourly, daily, weekly or never
day $work/switch app|$usage\\nrolltee: 'day' is no rotation: take minutely, hourly, daily, weekly or never
--no-wait never $work/switch|$usage\\nrolltee: three words are wanted, ROTATION DIR PREFIX, and not 2
--no-wait --no-wait never $work/switch app|--no-wait: given twice
never $work/switch app --keep|--keep: a value is missing
never $work/switch app --keep 0|--keep: not a number from 1
never $work/switch app --keep -3|--keep: not a number from 1
--keep --lossy hourly $work/switch app|--keep: a value is missing
--suffix= hourly $work/switch app|--suffix: a value is missing
--suffix -3|--suffix: a value is missing
--keep=+3|--keep: not a number from 1
--keep= x|--keep: not a number from 1
--queue -0 app|--queue: not a number from 1
--sync --echo --sync|--sync: given twice
--max-bytes -1K|--max-bytes: not a number of bytes from 1, as 500, 64K, 10M or 2G
--max-bytes K|--max-bytes: not a number of bytes from 1, as 500, 64K, 10M or 2G
--max-bytes 1KK|--max-bytes: not a number of bytes from 1, as 500, 64K, 10M or 2G
--max-bytes 17179869184G|--max-bytes: not a number of bytes from 1, as 500, 64K, 10M or 2G
--keep 18446744073709551616 daily $work/switch app|--keep: not a number from 1
never $work/switch app --keep 1|@--keep: not with never, a log of one file; take weekly, whose files are the longest
never $work/switch app --max-bytes 1|@--max-bytes: not with never, a log of one file; take weekly, whose files are the longest
--max-bytes x hourly $work/switch app|--max-bytes: not a number of bytes from 1, as 500, 64K, 10M or 2G
--max-bytes 0k hourly $work/switch app|--max-bytes: not a number of bytes from 1, as 500, 64K, 10M or 2G
--max-bytes=1KB hourly $work/switch app|--max-bytes: not a number of bytes from 1, as 500, 64K, 10M or 2G
--direct --queue 2 never $work/switch app|@--queue: not with --direct
hourly $work/switch app --queue=2 --direct|@--queue: not with --direct
--lossy never $work/switch app --direct|@--lossy: not with --direct
--direct daily $work/switch app --lossy|@--lossy: not with --direct
never --link=a --link=b $work/switch app|--link: given twice
END
for word in -x --no-wait=1 --kep=1 --Keep --helpme -; do
  run "$rolltee" "$word" never "$work/switch" app < "$lines"
  check "rolltee $word never DIR app" "2||rolltee: $word: unknown option"$'\n'"$usage" "$(told)"
done
# So is what makes no name, or one that is too long.
long=$(printf '%0250d' 0)
while IFS='|' read -r words wanted; do
  run "$rolltee" $words < "$lines"
  check "rolltee ${words//$work/}" "1||$(printf '%b' "$wanted")" "$(told)"
done << END
daily $work/switch a/b|name not allowed\\nrolltee: PREFIX 'a/b' has a '/'
never $work/switch ..|name not allowed\\nrolltee: PREFIX '..' makes no file name
daily $work/switch app --suffix a/b|name not allowed\\nrolltee: --suffix 'a/b' has a '/'
daily $work/switch app --link a/b|name not allowed\\nrolltee: --link 'a/b' has a '/'
daily $work/clash app --link app.2026-01-01|name not allowed\\nrolltee: --link 'app.2026-01-01' has the name of a log file
daily $work/switch $long|failed to create log file: File name too long (os error 36)\\n@no log was opened
never $lines app|failed to create log directory: File exists (os error 17)\\n@no log was opened
END
check 'rolltee, wrong options make no folder' no "$([ -e "$work/switch" ] && echo yes || echo no)"

run "$rolltee" never "$work/names" app --suffix ".${long:50}" --link=latest < "$lines"
check 'rolltee --suffix --link' $'0||[one\ntwo]' "$(told)$(content "$work/names/latest")"
check 'rolltee --suffix --link: names' "app.${long:50}"$'\nlatest' "$(ls "$work/names")"
# The last line has no newline.
seq 3000 | head -c -1 > "$work/numbers"
# More lines than wait, to a log of each rotation. If a minute ends meanwhile, they are written once more.
names_now() {
  echo $(date -u +'daily/app.%F hourly/app.%F-%H minutely/app.%F-%H-%M never/app') \
    "$(date -u -d "-$(date -u +%w) days" +weekly/app.%F)"
}
for turn in 1 2 3; do
  rm -rf "$work/each"
  names=$(names_now)
  told_each=
  for rotation in daily hourly minutely never weekly; do
    run "$rolltee" "$rotation" "$work/each/$rotation" app < "$work/numbers"
    told_each+="$(told) $(cat "$work/each/$rotation"/* | same - "$work/numbers"), "
  done
  [ "$names" != "$(names_now)" ] || break
done
check 'rolltee, each rotation' '0|| same, 0|| same, 0|| same, 0|| same, 0|| same, ' "$told_each"
check 'rolltee, each rotation: the names' "$names" "$(cd "$work/each" && echo */*)"
# Files of others stay.
mkdir "$work/others"
touch "$work"/others/{app.2020-02-01-10,app.2020-02-01,app.conf,app-access.2020-02-01-10,apple,app.2020-02-01-10.gz}
run "$rolltee" --keep 1 hourly "$work/others" app < "$lines"
check 'rolltee --keep 1: files of others stay' '0||app-access.2020-02-01-10 app.2020-02-01 app.2020-02-01-10.gz app.H app.conf apple' \
  "$(told)$(ls "$work/others" | sed "s/^app\.$(date -u +%Y-%m)-..-..$/app.H/" | paste -s -d ' ')"
# A line that is longer than the limit has a file of its own.
printf 'a\nb\nc\nd\nlonger\ne\n' | run "$rolltee" --whole-lines --keep 3 --max-bytes 4 weekly "$work/longer" app
check 'rolltee --max-bytes, a longer line' '4 7 2' "$(stat -c %s "$work"/longer/* | paste -s -d ' ')"
# A part of a line that another run left is ended if that is asked for.
for direct in '' ' --direct'; do
  while IFS='|' read -r option before wanted; do
    printf "$before" > "$work/part"
    run "$rolltee" $direct $option never "$work" part < "$lines"
    check "rolltee$direct $option, after '$before'" "0||[$(printf "$wanted")]" "$(told)$(content "$work/part")"
  done << 'END'
--whole-lines|par|par\none\ntwo
--whole-lines|whole\n|whole\none\ntwo
--whole-lines||one\ntwo
|par|parone\ntwo
END
done
# A last file with a second link, as a copy of the folder by links leaves it, is left as it is: the next number is begun.
for words in one two three; do
  run "$rolltee" --max-bytes 100 --link latest daily "$work/copied" app <<< "$words"
  [ $words != one ] || ln "$work/copied/$(readlink "$work/copied/latest")" "$work/copied/copy"
done
check 'rolltee --max-bytes, a file with a second link' $'0||[two\nthree][one]' \
  "$(told)$(content "$work/copied/latest")$(content "$work/copied/copy")"
for ((i = 0; i < 20; i++)); do printf '%0127d\n' "$i"; done > "$work/lines.20"
for direct in '' ' --direct'; do
  for words in --echo --timestamps '--echo --timestamps'; do
    name="rolltee$direct $words"
    rm -rf "$work/words"
    run "$rolltee" $direct $words never "$work/words" app < "$work/numbers"
    check "$name" '0|' "$status|$(cat "$err")"
    case $words in *times*) stamp='[0-9-]{10}T[0-9:]{8}\.[0-9]{6}Z ' ;; *) stamp= ;; esac
    check "$name: the log" same "$(sed -nE "s/^$stamp([0-9]+)$/\1/p" "$work/words/app" | same - "$work/numbers")"
    case $words in *echo*) echoed=$work/words/app ;; *) echoed=/dev/null ;; esac
    check "$name: the output" same "$(same "$out" "$echoed")"
  done
  timeout 5 "$rolltee" $direct never "$work/unheard${direct# }" app --echo > /dev/full 2> "$err" < "$lines"
  check "rolltee$direct --echo > /dev/full" \
    $'1|@lines are not echoed: No space left on device (os error 28)\n@lines not echoed: 2' "$?|$(said)"
  check "rolltee$direct --echo > /dev/full: the log" $'[one\ntwo]' "$(content "$work/unheard${direct# }/app")"
  # A reader that ends after a line, as a pager does.
  seq 20000 | timeout 9 "$rolltee" $direct --echo never "$work/reader${direct# }" app 2> "$err" | head -n 1 > "$out"
  check "rolltee$direct --echo | head" $'1|@lines are not echoed: Broken pipe (os error 32)\n@lines not echoed: ' \
    "${PIPESTATUS[1]}|$(said | sed '2s/[0-9]*$//')"
  check "rolltee$direct --echo | head: the log" same "$(seq 20000 | same - "$work/reader${direct# }/app")"

  # 8 of these 20 lines are 1 KiB.
  kept=$work/kept${direct# }
  name="rolltee$direct --max-bytes 1K"
  run "$rolltee" $direct --max-bytes 1K --suffix log --link latest.log weekly "$kept" app < "$work/lines.20"
  check "$name: the sizes of the files" '0||1024 1024 512' "$(told)$(stat -c %s "$kept"/app.* | paste -s -d ' ')"
  check "$name: the log" same "$(cat "$kept"/app.* | same - "$work/lines.20")"
  touch "$kept/app.conf" "$kept/app.2020-01-01.log"
  run "$rolltee" $direct --max-bytes=1k --keep 2 --suffix log --link latest.log weekly "$kept" app < "$work/lines.20"
  check "$name --keep 2: the sizes of the files" '0||1024 1024' "$(told)$(stat -c %s "$kept"/app.*.0* | paste -s -d ' ')"
  check "$name --keep 2: the names" 'app.2020-01-01.log app.D.000003.log app.D.000004.log app.conf latest.log' \
    "$(ls "$kept" | sed -E 's/[0-9-]{10}\.0/D.0/' | paste -s -d ' ')"
  check "$name --keep 2: the link" "$(tail -n 8 "$work/lines.20")" "$(cat "$kept/latest.log")"
done
if has strace 'rolltee --sync'; then
  for option in '' --sync; do
    timeout 9 strace -f -e trace=fdatasync,fsync -o "$out" "$rolltee" $option never "$work/synced" app < "$lines"
    check "rolltee $option: whether it syncs" "${option:+yes}" "$(grep -qE 'f(data)?sync\(' "$out" && echo yes)"
  done
fi

# Two that begin a log at once, in a folder that is not there.
seq 100 > "$work/hundred"
for ((i = 0; i < 25; i++)); do
  timeout 9 "$rolltee" never "$work/at_once.$i" app < "$work/hundred" 2>> "$work/at_once" &
  timeout 9 "$rolltee" never "$work/at_once.$i" app < "$work/hundred" 2>> "$work/at_once"
  wait $!
done
check 'two rolltee at once' '|5000' "$(cat "$work/at_once")|$(cat "$work"/at_once.*/app | wc -l)"

# A log file that someone removes, moves or cuts while a line is waited for: the next line begins a new file.
lost_file() {
  local what=$1 command=$2 words=$3 log=$work/lost/app direct
  for direct in '' ' --direct'; do
    rm -rf "$work/lost"
    begin "$rolltee" $direct never "$work/lost" app
    echo one >&9
    wait_until has_lines "$log" 1
    (cd "$work/lost" && eval "$command")
    echo two >&9
    wait_until has_lines "$log" 1
    echo three >&9
    end
    check "rolltee$direct, a log file that is $what" "1||@app: log file $words"$'\n@log files not found again: 1' "$(told)"
    check "rolltee$direct, a log file that is $what: the log" $'[two\nthree]' "$(content "$log")"
  done
}
run "$rolltee" --no-wait --version < /dev/null
check 'rolltee --no-wait --version' "0|rolltee $version|" "$(told)"

run "$rollplay" here there < "$script"
check 'rollplay, arguments' "0|$played|" "$(told)"
run "$rollplay" -- -x --help < "$script"
check 'rollplay -- -x --help' "0|$played|" "$(told)"
run "$rollplay" $'\xff' < "$script"
check 'rollplay, an argument that is not UTF-8' "0|$played|" "$(told)"

# ---- outputs and disks that are full

timeout 5 "$rollplay" > /dev/full 2> "$err" < "$script"
check 'rollplay > /dev/full' '2|' "$?|$(cat "$err")"
timeout 5 "$rolltee" never "$work/full" app > /dev/full 2>&1 < "$lines"
check 'rolltee > /dev/full' 0 "$?"
check 'rolltee > /dev/full: the log' $'[one\ntwo]' "$(content "$work/full/app")"
timeout 5 "$rolltee" > /dev/null 2> /dev/full < "$lines"
check 'rolltee 2> /dev/full' 2 "$?"

many=$work/many
for ((i = 0; i < 400; i++)); do printf '%0127d\n' "$i"; done > "$many"
mkdir "$disk"
if mount -t tmpfs -o size=16k programs "$disk" 2> "$err"; then
  for direct in '' ' --direct'; do
    run "$rolltee" $direct --no-wait never "$disk/logs" app < "$many"
    lost=$(said | sed -n 's/^@lines not written whole: //p')
    check "rolltee$direct --no-wait, a full disk" \
      $'1||@lines are lost: No space left on device (os error 28)\n@lines not written whole: '"$lost" "$(told)"
    check "rolltee$direct --no-wait, a full disk: each line is in the log or counted" 400 $(($(line_count "$disk/logs/app") + lost))
    check "rolltee$direct --no-wait, a full disk: the log begins with the lines" same \
      "$(head -c "$(stat -c %s "$disk/logs/app")" "$many" | same - "$disk/logs/app")"
    rm -r "$disk/logs"
  done
  # Runs a program whose log does not fit the disk, which gets room while the program waits for it. Wants all lines in the log.
  waits() {
    local name=$1 waiting
    shift
    mount -o remount,size=16k "$disk"
    : > "$err"
    timeout 9 "$@" < "$many" > "$out" 2> "$err" &
    waiting=$!
    wait_until [ -s "$err" ]
    check "$name, a full disk: it says so at once" '@writes pause: No space left on device (os error 28)' "$(said)"
    mount -o remount,size=1m "$disk"
    wait "$waiting"
    status=$?
    check "$name, a full disk" $'0||@writes pause: No space left on device (os error 28)\n@writes go on' "$(told)"
    check "$name, a full disk: the log" same "$(cat "$disk/logs"/a* | same - "$many")"
    rm -r "$disk/logs"
  }
  waits rolltee "$rolltee" never "$disk/logs" app
  waits 'an audit trail' "${trail[@]}" daily "$disk/logs" audit
  # A lossy queue has at most 16 MiB of lines, also if none ends. The peak is that of the process, in KiB.
  mount -o remount,size=16k "$disk"
  "$rolltee" --lossy never "$disk/logs" app < "$fifo" > "$out" 2> "$err" &
  running=$!
  { head -c 200M /dev/zero | tr '\0' x; cat "$lines"; } > "$fifo"
  peak=$(sed -n 's/^VmHWM:[^0-9]*\([0-9]*\) kB/\1/p' "/proc/$running/status")
  check 'rolltee --lossy, a full disk and a line that does not end: at most 32 MiB' yes \
    "$([ "$peak" -le 32768 ] && says 'lines are dropped' && echo yes || echo "$peak")"
  kill -9 "$running"
  wait "$running" 2> /dev/null
  rm -r "$disk/logs"
  # The file is removed while it has a part of a line. That line is lost, and the next file begins with one.
  for direct in '' ' --direct'; do
    mount -o remount,size=16k "$disk"
    : > "$err"
    timeout 9 "$rolltee" $direct never "$disk/logs" app < <(seq 9999) > "$out" 2> "$err" &
    running=$!
    wait_until says 'writes pause'
    rm "$disk/logs/app"
    mount -o remount,size=1m "$disk"
    wait "$running"
    status=$?
    name="rolltee$direct, a file that is removed amid a line"
    check "$name" 1 "$status"
    check "$name: it says so" '@lines not written whole: 1; log files not found again: 1' "$(said | tail -n 1)"
    check "$name: the next file" same "$(seq 3500 9999 | same - "$disk/logs/app")"
    rm -r "$disk/logs"
  done
  run "$rolltee" never "$disk/logs" app < "$lines"
  check 'rolltee, a disk with room' $'0||[one\ntwo]' "$(told)$(content "$disk/logs/app")"
else
  skip 'rolltee, a full disk' "$(head -1 "$err")"
fi

# ---- a line that does not end

# 64 MiB without a newline, in a process that may not have twice as many.
endless() {
  head -c 67108864 /dev/zero | tr '\0' x
}
export -f endless
for direct in '' ' --direct'; do
  run bash -c 'ulimit -v 131072; endless | "$@"' bash "$rolltee" $direct never "$work/endless" app
  check "rolltee$direct, a line that does not end" '0||' "$(told)"
  check "rolltee$direct, a line that does not end: the log" same "$(endless | same - "$work/endless/app")"
  rm -rf "$work/endless"
done
{ head -c 3145728 /dev/zero | tr '\0' x; echo; echo end; } > "$work/long"
run "$rolltee" --direct --timestamps never "$work/long.log" app < "$work/long"
check 'rolltee --direct --timestamps, a line of 3 MiB' '0||same' "$(told)$(cut -c 29- "$work/long.log/app" | same - "$work/long")"

# ---- an input that does not block

# Runs a program with a pipe that does not block as its input, and writes to that in two parts.
unblocked='
import os, subprocess, sys, time
read, write = os.pipe()
os.set_blocking(read, False)
program = subprocess.Popen(sys.argv[1:], stdin=read)
os.close(read)
for part in (b"one\nt", b"wo\n"):
    time.sleep(0.2)
    os.write(write, part)
os.close(write)
sys.exit(program.wait(4))
'
if has python3 'an input that does not block'; then
  for direct in '' ' --direct'; do
    run python3 -c "$unblocked" "$rolltee" $direct never "$work/unblocked" "app$direct"
    check "rolltee$direct, an input that does not block" $'0||[one\ntwo]' "$(told)$(content "$work/unblocked/app$direct")"
  done
fi

# ---- a FIFO whose writers come and go

log=$work/writers/app
"$rolltee" never "$work/writers" app <> "$fifo" &
running=$!
for ((count = 1; count <= 3; count++)); do
  timeout 5 bash -c 'echo "$1" > "$2"' bash "$count" "$fifo"
  wait_until has_lines "$log" "$count"
done
check 'rolltee <> FIFO, three writers' $'[1\n2\n3]' "$(content "$log")"
{ kill "$running" && wait "$running"; } 2> /dev/null

# ---- a folder that another file system covers

# Runs rolltee in a file system of its own. Another one then covers that, whose log file has the same inode number. Ends with
# the status of rolltee, or with 77 if there is no such file.
run_covered() {
  local running number turn
  mount -t tmpfs first "$covered" || exit 77
  "$rolltee" --direct never "$covered" app < "$fifo" &
  running=$!
  exec 9> "$fifo"
  echo one >&9
  until [ -s "$covered/app" ]; do sleep 0.01; done
  number=$(stat -c %i "$covered/app")
  mount -t tmpfs second "$covered"
  for ((turn = 0; turn < 20; turn++)); do
    : > "$covered/$turn"
    [ "$(stat -c %i "$covered/$turn")" != "$number" ] || mv "$covered/$turn" "$covered/app"
  done
  exec 9>&-
  wait "$running"
  status=$?
  [ -f "$covered/app" ] || status=77
  exit "$status"
}
export -f run_covered
export rolltee fifo covered=$work/covered
mkdir "$covered"
run unshare -m bash -c run_covered
if [ "$status" = 77 ] || ! unshare -m true 2> /dev/null; then
  skip 'rolltee --direct, a covered folder' "$(head -1 "$err")"
else
  check 'rolltee --direct, a covered folder: the log file is another one' \
    $'1||@app: log file removed, renamed or replaced\n@log files not found again: 1' "$(told)"
fi

# ---- log files that others change

lost_file removed 'rm app' 'removed, renamed or replaced'
lost_file moved 'mv app app.1' 'removed, renamed or replaced'
lost_file truncated ': > app' truncated
lost_file 'gone with its folder' 'rm -r ../lost' 'removed, renamed or replaced'

# The folder is replaced by a file: the next line waits until there can be a folder again.
log=$work/closed/app
begin "$rolltee" never "$work/closed" app
echo one >&9
wait_until has_lines "$log" 1
rm -r "$work/closed"
echo file > "$work/closed"
echo two >&9
wait_until says ': writes pause: '
check 'rolltee, a folder that is replaced by a file: it says so at once' \
  $'@app: log file not found again: Not a directory (os error 20)\n@writes pause: File exists (os error 17)' "$(said)"
rm "$work/closed"
echo three >&9
end
check 'rolltee, a folder that is replaced by a file' 1 "$status"
check 'rolltee, a folder that is replaced by a file: what is reported at the end' \
  $'@writes go on\n@log files not found again: 1' "$(said | tail -n 2)"
check 'rolltee, a folder that is replaced by a file: the log' $'[two\nthree]' "$(content "$log")"

# Something else has the link's name: it stays, and files begin and go, at a start and during a run. It is said once, until
# there is a link again.
while IFS='|' read -r name kind seen words; do
  mkdir "$work/linked"
  if [ "$kind" = folder ]; then mkdir "$work/linked/$name"; else echo mine > "$work/linked/$name"; fi
  seq 2 > "$work/linked/app.2020-02-01.000000"
  for start in 1 2; do run "$rolltee" --keep 1 --max-bytes 1K --link cur daily "$work/linked" app < "$lines"; done
  check "rolltee, $name is a $kind" "0||@cur $words" "$(told)"
  check "rolltee, $name is a $kind: the folder" "1 $seen" \
    "$(find "$work/linked" -name 'app.*' | wc -l) $(find "$work/linked/$name" -maxdepth 0 -printf '%y, ')$(content "$work/linked/$name")"
  rm -r "$work/linked"
done << 'END'
cur|file|f, [mine]|is no symbolic link, and stays
cur|folder|d, no file|is no symbolic link, and stays
.cur.new|file|f, [mine]|can't be made: the name for the new link is in use
END
mkdir "$work/linked"
for direct in '' ' --direct'; do
  name="rolltee$direct, a link that becomes a file"
  begin "$rolltee" $direct --keep 3 --max-bytes 1K --link cur daily "$work/linked" app
  echo one >&9
  wait_until has_lines "$work/linked/cur" 1
  rm "$work/linked/cur"
  echo mine > "$work/linked/cur"
  cat "$work/lines.20" "$work/lines.20" >&9
  wait_until eval '[ -e "$work"/linked/app.*.000005 ]'
  check "$name: each file has its bytes" '1024 1024' "$(stat -c %s "$work"/linked/app.*.00000[34] | paste -s -d ' ')"
  check "$name: old ones are removed" 3 "$(find "$work/linked" -name 'app.*' | wc -l)"
  check "$name: it stays" '[mine]' "$(content "$work/linked/cur")"
  rm "$work/linked/cur"
  cat "$work/lines.20" >&9
  wait_until eval '[[ $(readlink "$work/linked/cur") == *.000007 ]]'
  echo mine > "$work/linked/.cur.new"
  cat "$work/lines.20" >&9
  end
  check "$name: it is said once" \
    $'0||@cur is no symbolic link, and stays\n@cur can\'t be made: the name for the new link is in use' "$(told)"
  rm -r "$work/linked"
  mkdir "$work/linked"
done
# So it is if the system refuses the link.
if has strace 'rolltee, a link that is refused'; then
  run strace -f -qq -o /dev/null -e trace=symlink,symlinkat -e 'inject=symlink,symlinkat:error=ENOSPC' \
    "$rolltee" --max-bytes 1K --link cur daily "$work/linked" app < "$work/lines.20"
  check 'rolltee, a link that is refused' $'0||@cur can\'t be made: No space left on device (os error 28)' "$(told)"
  check 'rolltee, a link that is refused: the log' same "$(cat "$work/linked"/app.* | same - "$work/lines.20")"
fi

# Of ten lines one is soon in the file, since the machine may be busy.
least=5000
begin "$rolltee" never "$work/slow" app
for ((count = 1; count <= 10; count++)); do
  start=$(date +%s%N)
  echo "$count" >&9
  wait_until has_lines "$work/slow/app" "$count"
  took=$((($(date +%s%N) - start) / 1000000))
  [ $took -ge $least ] || least=$took
done
end
check 'rolltee, a slow input: the milliseconds until a line is in the file' '0||below 100' \
  "$(told)$([ $least -lt 100 ] && echo below 100 || echo $least)"

# The input is the open file of the log: nothing is written.
run "$rolltee" --link cur never "$work/itself" app < "$lines"
for direct in '' ' --direct'; do
  run "$rolltee" $direct --link cur never "$work/itself" app < "$work/itself/cur"
  check "rolltee$direct, an input that is the log" $'1||@input is the log[one\ntwo]' "$(told)$(content "$work/itself/app")"
done

# ---- files of a later time, and archives

mkdir "$work/later"
touch "$work"/later/app.203{0,1,2}-01-01 "$work/later/app.2020-01-01" "$work/later/app.2020-01-02"
run "$rolltee" --keep 2 daily "$work/later" app < "$lines"
check 'rolltee --keep, files of a later time' '0||@3 log files are of a later time: not counted' "$(told)"
check 'rolltee --keep, files of a later time: the folder' "app.2020-01-02 app.$(date -u +%F) app.2030-01-01 app.2031-01-01 app.2032-01-01" \
  "$(cd "$work/later" && echo app.*)"
# The archives of the morning are there in the evening, though the last file was compressed too.
for part in morning evening; do
  seq -f "$part %g" 100 > "$work/$part"
  run "$rolltee" --max-bytes 1K --keep 9 daily "$work/archives" app < "$work/$part"
  gzip -f "$work"/archives/app.*[0-9]
done
check 'rolltee --max-bytes, files that are compressed' same \
  "$(zcat "$work"/archives/app.*.gz | same - <(cat "$work/morning" "$work/evening"))"

# refused FAULT ARGUMENT..: runs `rolltee` with these lines, and with this fault of one of its calls, as write:error=EIO.
refused() {
  local fault=$1
  shift
  timeout 9 strace -f -qq -o "$work/calls" -P "$work/refused/app" -e "trace=${fault%%:*}" -e "inject=$fault:when=1" \
    "$rolltee" "$@" never "$work/refused" app < "$lines" > "$out" 2> "$err"
  status=$?
}
if ! strace -f -qq -o "$work/calls" -e trace=fdatasync true > /dev/null 2> "$err"; then
  skip 'rolltee, calls that are refused' "$(head -1 "$err")"
else
  for direct in '' ' --direct'; do
    rm -rf "$work/refused"
    run "$rolltee" never "$work/refused" app < "$lines"
    refused write:error=EROFS $direct
    check "rolltee$direct, a write to a disk that is read only" \
      $'0||@writes pause: Read-only file system (os error 30)\n@writes go on' "$(told)"
    refused write:error=EROFS --no-wait $direct
    check "rolltee$direct --no-wait, a write to a disk that is read only" \
      $'1||@lines are lost: Read-only file system (os error 30)\n@lines not written whole: 1' "$(told)"
    check "rolltee$direct, a disk that is read only: the log" $'[one\ntwo\none\ntwo\ntwo]' "$(content "$work/refused/app")"
    refused fdatasync:error=EIO --sync $direct
    check "rolltee$direct --sync, a sync that fails" '1||@syncs that failed: 1' "$(told)"
  done
fi

# ---- a supervisor

# Sends signals to the log of a service, whose run script is that of `rolltee --help`. Then it starts the log anew by this
# command, and ends both.
supervised() {
  local service=$work/service/app SVDIR=$work/service turn signal running
  export SVDIR
  mkdir -p "$service/log"
  cat > "$service/run" << 'END'
#!/bin/sh
for number in $(seq 1000); do
  echo "line $number"
  [ $((number % 100)) != 0 ] || sleep 0.1
done
exec sleep 20
END
  # A signal may end the shell before its trap: then it has read nothing, and isn't counted.
  printf "#!/bin/sh\ntrap '' INT TERM HUP QUIT\necho >> '%s'\nexec '%s' --keep 7 --max-bytes 10M daily '%s' app\n" \
    "$work/starts" "$rolltee" "$work/supervised" > "$service/log/run"
  chmod +x "$service/run" "$service/log/run"
  runsv "$service" &
  running=$!
  for ((turn = 0; turn < 300; turn++)); do
    [ "$(cat "$work"/supervised/app.* 2> /dev/null | wc -l)" -lt 1000 ] || break
    for signal in term interrupt hup quit; do sv "$signal" "$service/log"; done
    sleep 0.01
  done
  starts=$(line_count "$work/starts")
  eval "$1"
  for ((turn = 0; turn < 300; turn++)); do
    [ "$(cat "$work"/supervised/app.* 2> /dev/null | wc -l)" -lt 2000 ] || break
    sleep 0.01
  done
  sv exit "$service"
  wait "$running"
} > /dev/null 2>&1
if command -v runsv > /dev/null && command -v sv > /dev/null; then
  supervised "$(recipe 'sv stop app')"
  check 'rolltee under runsv, after signals: it was started once' 1 "$starts"
  check 'rolltee under runsv, after a KILL while its service is down: it was started again' 2 "$(line_count "$work/starts")"
  check 'rolltee under runsv: the log' same \
    "$(cat "$work"/supervised/app.* | same - <(seq -f 'line %g' 1000; seq -f 'line %g' 1000))"
else
  skip 'rolltee under runsv' 'no runsv'
fi

# Starts the log of a service at full speed anew by this command. Then it ends both.
restarted() {
  local running turn
  mkdir -p "$SVDIR/app/log"
  cat > "$SVDIR/app/run" << 'END'
#!/usr/bin/env bash
# Each start goes on after the last number of the one before.
trap 'ends=1' TERM
number=$(cat ../last || echo 0)
until [ "${ends-}" ]; do
  seq $((number + 1)) $((number + 1000))
  number=$((number + 1000))
done
echo "$number" > ../last
END
  printf "#!/bin/sh\ntrap '' INT TERM HUP QUIT\necho >> '%s'\nexec '%s' daily ./main app\n" "$SVDIR/starts" "$rolltee" > "$SVDIR/app/log/run"
  chmod +x "$SVDIR/app/run" "$SVDIR/app/log/run"
  runsvdir "$SVDIR" &
  running=$!
  wait_until [ -s "$SVDIR/starts" ]
  wait_until eval 'cat "$SVDIR"/app/log/main/app.* | grep -q 1000'
  eval "$1"
  # runsvdir looks every five seconds.
  for ((turn = 0; turn < 6; turn++)); do
    ! wait_until has_lines "$SVDIR/starts" 2 || break
  done
  kill "$running"
  sv -v -w 20 exit app
  wait "$running"
} > /dev/null 2>&1
name='a log that is started anew under runsvdir'
if has runsvdir "$name"; then
  export SVDIR=$work/services
  restarted "$(recipe 'sv exit')"
  check "$name: its starts" 2 "$(line_count "$SVDIR/starts")"
  check "$name: the log" same "$(cat "$SVDIR"/app/log/main/app.* | same - <(seq "$(cat "$SVDIR/last")"))"
fi

# ---- what rolltee says of lines that it drops, loses or does not echo

mkdir "$work/told"
touch "$work/told/app"
# on_log OUTPUT CALLS OPTION..: runs rolltee with this output, and what strace does to the writes of its log.
on_log() {
  local output=$1 calls=$2
  shift 2
  run bash -c "exec \"\$@\" > $output" bash strace -f -qq -o /dev/null -P "$work/told/app" -e trace=write -e "inject=write:$calls" \
    "$rolltee" "$@" never "$work/told" app
}
if has strace 'rolltee, lines that are dropped or lost'; then
  seq 2000 > "$work/told.lines"
  on_log /dev/stdout delay_enter=1000 --lossy --queue 2 --echo < "$work/told.lines"
  check 'rolltee --lossy --queue 2 --echo, a slow log: it says so once' \
    $'1|@lines are dropped: the queue is full\n@lines dropped: ' "$status|$(said | sed '2s/[0-9]*$//')"
  check 'rolltee --lossy --queue 2 --echo, a slow log: all lines but those' 2000 \
    $(($(line_count "$work/told/app") + $(said | sed -n 's/^@lines dropped: //p')))
  check 'rolltee --lossy --queue 2 --echo, a slow log: all lines are echoed' same \
    "$(same "$work/told.lines" "$out")"
  on_log /dev/full error=ENOSPC --no-wait --echo < "$lines"
  check 'rolltee --no-wait --echo > /dev/full' "$(printf '%s\n' '1|@lines are lost: No space left on device (os error 28)' \
    '@lines are not echoed: No space left on device (os error 28)' '@lines not written whole: 2; lines not echoed: 2')" \
    "$status|$(said | sort -k 3)"
  : > "$work/told/app"
  on_log /dev/stdout error=ESTALE:when=1 < "$lines"
  check 'rolltee, a fault of another kind' "$(printf '%s\n' '0||@writes pause: Stale file handle (os error 116)' '@writes go on')" "$(told)"
  check 'rolltee, a fault of another kind: the log' $'[one\ntwo]' "$(content "$work/told/app")"
  run strace -f -qq -o /dev/null -e trace=fdatasync -e inject=fdatasync:error=EIO \
    "$rolltee" --sync --max-bytes 1K daily "$work/told" synced < "$work/told.lines"
  check 'rolltee --sync --max-bytes 1K, syncs that fail: one for each file at least' yes \
    "$([ "$(said | sed -n 's/^@syncs that failed: //p')" -ge "$(find "$work/told" -name 'synced.*' | wc -l)" ] && echo yes || cat "$err")"
fi
run "$rolltee" --queue 1 never "$work/told" one < "$many"
check 'rolltee --queue 1' '0||same' "$(told)$(same "$many" "$work/told/one")"
before=$(date -u +%FT%T)
{ echo one; sleep 1.1; echo two; } | run "$rolltee" --timestamps never "$work/told" times
after=$(date -u +%FT%TZ)
check 'rolltee --timestamps: each line has its own time' 'one two' "$(awk -v from="$before" -v to="$after" \
  '$1 >= from && $1 <= to && substr($1, 1, 19) > last { print $2 } { last = substr($1, 1, 19) }' "$work/told/times" | paste -s -d ' ')"
for ((length = 0; length < 1100; length++)); do printf "%0${length}d\n" 0; done > "$work/told.source"
run "${trail[@]}" daily "$work/told.trail" audit < "$work/told.source"
check 'an audit trail, lines of all lengths' '0||same' "$(told)$(same "$work/told.source" "$work/told.trail/latest.log")"

# ---- the recipes that keep the status of a service

# The service prints numbers. On TERM, or after 200 of them, it prints 40 more and its last words, and ends as the file `way` says.
stopped=$work/stopped
mkdir -p "$stopped/bin"
ln -s service "$stopped/bin/job"
cat > "$stopped/bin/service" << 'end'
#!/usr/bin/env bash
cd "${0%/*}/.."
trap 'ends=1' TERM
way=$(cat way)
case $way in TERM) most=20000 ;; *) most=200 ;; esac
echo $$ > pid
number=0
pause() { { sleep 0.01; } 2> /dev/null; }
until [ "${ends-}" ] || ((number >= most)); do
  echo $((number += 1))
  [ $((number % 50)) != 0 ] || pause
done
: > ending
for ((turn = 0; turn < 200; turn++)); do
  [ "$way" = TERM ] && [ ! -e again ] || break
  pause
done
for more in {1..40}; do echo $((number += 1)); done
echo "$number" > last
echo 'last words' >&2
[ "$way" != KILL ] || kill -KILL $$
exit 3
end
# A log on a slow disk: once all is written it waits for the file `go`, and then adds a line.
cat > "$stopped/bin/rolltee" << end
#!/usr/bin/env bash
'$rolltee' "\$@"
status=\$?
cd '$stopped'
: > written
for ((turn = 0; turn < 200; turn++)); do
  [ "\$(cat way)" = TERM ] && [ ! -e go ] || break
  sleep 0.01
done
echo "end \$status" | tee -a log/* > /dev/null
end
chmod +x "$stopped/bin/service" "$stopped/bin/rolltee"

# in_place WORDS: the recipe with these words, in this folder.
in_place() {
  recipe "$1" | sed "s#/tmp/log#$stopped/pipe#g; s#/var/log/app\|/var/log\|/logs#$stopped/log#g"
}
in_place '[Service]' | sed -n 's/^ExecStart=/exec /p' > "$stopped/systemd"
in_place '#!/bin/sh' > "$stopped/container"
in_place 'job 2>&1' > "$stopped/cron"

# Sends TERM to those that the supervisor sends it to.
send_term() {
  case $place in
    systemd) kill -TERM -"$running" ;;
    container) kill -TERM "$(pgrep -P "$running")" ;;
    cron) kill -TERM "$(cat "$stopped/pid")" 2> /dev/null ;;
  esac
}

has_logged() {
  [ "$(cat "$stopped"/log/* 2> /dev/null | wc -l)" -ge "$1" ]
}

for place in systemd container cron; do
  case $place in systemd) shell=(setsid bash) ;; container) shell=(unshare -p -f sh) ;; cron) shell=(sh) ;; esac
  if ! "${shell[@]}" -c true 2> "$err"; then
    skip "the recipe of $place" "$(head -1 "$err")"
    continue
  fi
  for way in 3 TERM KILL; do
    (cd "$stopped" && rm -rf log last ending again written go)
    echo "$way" > "$stopped/way"
    PATH=$stopped/bin:$PATH "${shell[@]}" "$stopped/$place" > "$out" 2> "$err" &
    running=$!
    # The second TERM comes while the service is ending, and the third after that.
    if [ "$way" = TERM ]; then
      wait_until has_logged 100
      send_term
      wait_until [ -e "$stopped/ending" ]
      send_term
      touch "$stopped/again"
      wait_until [ -e "$stopped/written" ]
      send_term
      touch "$stopped/go"
    fi
    wait "$running"
    status=$?
    case $way in KILL) wanted=137 ;; *) wanted=3 ;; esac
    name="the recipe of $place, a service that ends by $way"
    check "$name: the status" "$wanted" "$status"
    check "$name: the log" same "$( (seq "$(cat "$stopped/last")" && printf 'last words\nend 0\n') | same - <(cat "$stopped"/log/*))"
    # The shell reports a KILL.
    [ "$way" = KILL ] || check "$name: nothing is reported" '' "$(cat "$out" "$err")"
  done
done

# ---- what a guard and a worker print

run "$top/crates/refusals/out/refusals" guard drop < /dev/null
check 'a dropped guard' \
  '0|Failed to send shutdown signal to logging worker. Error: Shutdown|Failed to flush. Error: no storage space' "$(told)"

conclude
