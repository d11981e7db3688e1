#!/usr/bin/env bash
# What starts, restarts, kills and faults leave of the lines that were there, and of those that come. Runs the built programs.
# Each check prints a line, and the last line is `N passed, M failed`. It ends within five minutes.
if [ "${1-}" != bounded ]; then exec timeout -k 6 290 bash "$0" bounded; fi
. "$(dirname "${BASH_SOURCE[0]}")/common.sh"

seq -f 'line %g' 60 > "$work/sixty"

# Whether all lines of a file are in the log files of a folder, in their order.
keeps_all() {
  cat "$1"/a*.[0-9]* | cmp -s - "$2" && echo all || echo "$(cat "$1"/a*.[0-9]* | wc -l) lines"
}

# ---- starts that are refused

# refuses NAME WORD PROGRAM ARGUMENT..: five starts, each of which ends with an error that has this word. The folder stays.
refuses() {
  local name=$1 word=$2 folder=$work/refusing before start
  shift 2
  before=$(ls -lA --time-style=full-iso "$folder")
  for start in 1 2 3 4 5; do
    run "$@" < "$work/sixty"
    if [ "$status" = 0 ] || ! says "$word"; then break; fi
  done
  check "$name: it is refused" yes "$([ "$status" != 0 ] && says "$word" && echo yes || told)"
  check "$name: the folder" "$before" "$(ls -lA --time-style=full-iso "$folder")"
}

mkdir "$work/refusing"
for number in 0 1 2 3 4; do seq 20 > "$work/refusing/app.2026-01-01.00000$number.log"; done
touch "$work/refusing/.app.lock"
keeping=(--keep 5 --max-bytes 1K --suffix log daily "$work/refusing" app)
refuses 'rolltee, no memory for the queue' 'no memory' "$rolltee" --queue 99999999999 "${keeping[@]}"
if has strace 'no thread'; then
  threadless=(strace -f -qq -o /dev/null -e trace=clone,clone3 -e inject=clone,clone3:error=EAGAIN "$rolltee")
  refuses 'rolltee, no thread' 'no thread' "${threadless[@]}" "${keeping[@]}"
  run "${threadless[@]}" --direct never "$work/threadless" app < "$lines"
  check 'rolltee --direct needs no thread' $'0||[one\ntwo]' "$(told)$(content "$work/threadless/app")"
fi

# ---- the lock of a log whose old files are removed

for direct in '' ' --direct'; do
  name="rolltee$direct --keep"
  folder=$work/locked${direct# }
  keeping=("$rolltee" $direct --keep 2 daily "$folder")
  begin "${keeping[@]}" audit
  echo one >&9
  wait_until eval 'cat "$folder"/audit.* 2> /dev/null | grep -q one'
  run "${keeping[@]}" audit < "$lines"
  check "$name, a second one" '1||@another rolltee --keep writes this log' "$(told)"
  run "$rolltee" $direct daily "$folder" audit < "$lines"
  check "$name, one without --keep beside it" '0||' "$(told)"
  run "${keeping[@]}" app < "$lines"
  check "$name, another prefix beside it" '0||' "$(told)"
  end
  check "$name, the first one" 0 "$status"
  check "$name, the log" $'one\none\ntwo' "$(cat "$folder"/audit.*)"
  begin "${keeping[@]}" audit
  echo three >&9
  wait_until eval 'cat "$folder"/audit.* | grep -q three'
  kill -KILL "$(pgrep -P "$running")"
  end 2> /dev/null
  run "${keeping[@]}" audit < "$lines"
  check "$name, after one that was killed" '0||' "$(told)"
  rm "$folder/.audit.lock"
  mkfifo "$folder/.audit.lock"
  run "${keeping[@]}" audit < "$lines"
  check "$name, a lock that is a FIFO" "0||@.audit.lock can't be locked: no plain file" "$(told)"
done
if [ "$EUID" = 0 ] && has setpriv 'a lock of another user' && has flock 'a lock of another user'; then
  rm "$folder/.audit.lock"
  cp "$rolltee" "$work/program"
  chmod 711 "$work"
  chown 65534 "$folder"
  exec 8> "$folder/.audit.lock"
  flock -n 8
  run setpriv --reuid 65534 --regid 65534 --clear-groups "$work/program" --keep 2 daily "$folder" audit < "$lines"
  check 'rolltee --keep, a lock of another user' '1||@another rolltee --keep writes this log' "$(told)"
  exec 8>&-
  chmod 700 "$work"
fi

# ---- restarts

# A service that is restarted often goes on in its file: no old line is lost for it, and no file is above the limit. svlogd gets
# the same lines.
beside=$work/svlogd
mkdir "$beside"
printf 's65536\nn5\n' > "$beside/config"
for program in svlogd rolltee 'an audit trail'; do
  folder=$work/restarted
  rm -rf "$folder"
  case $program in
    svlogd) has svlogd '100 restarts beside svlogd' || continue
      words=(svlogd "$beside") ;;
    rolltee) words=("$rolltee" --keep 5 --max-bytes 64K --whole-lines --link latest.log daily "$folder" app) ;;
    *) words=("${trail[@]}" --keep 5 --max-bytes 64K daily "$folder" audit) ;;
  esac
  seq -f 'a line of the run before it, number %g' 6000 > "$work/written"
  run "${words[@]}" < "$work/written"
  told=$status
  for ((start = 1; start <= 50; start++)); do
    echo "start $start" >> "$work/written"
    run "${words[@]}" <<< "start $start"
    told=$told$status
    run "${words[@]}" < /dev/null
    told=$told$status
  done
  if [ "$program" = svlogd ]; then
    kept=$(cat "$beside"/@* "$beside/current" | wc -l)
    check 'svlogd, 100 restarts: it keeps lines' yes "$([ "$kept" -gt 50 ] && echo yes || echo "$kept")"
    continue
  fi
  check "$program, 100 restarts: their status" "$(printf '0%.0s' {0..100})" "$told"
  check "$program, 100 restarts: all lines" all "$(keeps_all "$folder" "$work/written")"
  check "$program, 100 restarts: no fewer than svlogd" yes "$([ "$(cat "$folder"/a*.[0-9]* | wc -l)" -ge "${kept-0}" ] && echo yes || echo "svlogd: $kept")"
  check "$program, 100 restarts: no file above the limit" '' "$(find "$folder" -size +65536c)"
done

# part FOLDER LIMIT: adds the beginning of a line to the newest file, as a kill within a write leaves it, where a line fits.
part() {
  local newest room
  newest=$(readlink -f "$1/latest.log")
  room=$(($2 - $(stat -c %s "$newest") - 1))
  if ((room > 0)); then
    room=$((RANDOM % room + 1))
    printf "%0${room}d" 0 | tee -a "$newest" >> "$work/written"
    echo >> "$work/written"
  fi
}

# A thousand starts, some after such a kill, with lines and limits of any length: all lines are there, and no file is above its limit.
RANDOM=20201
for ((folders = 0; folders < 50; folders++)); do
  folder=$work/limited.$folders
  limit=$((RANDOM % 200 + 2))
  if ((folders % 2)); then
    words=("$rolltee" --whole-lines --link latest.log --max-bytes "$limit" daily "$folder" app)
  else
    words=("${trail[@]}" --max-bytes "$limit" daily "$folder" audit)
  fi
  : > "$work/written"
  for ((start = 0; start < 20; start++)); do
    for ((count = RANDOM % 4; count > 0; count--)); do printf "%0$((RANDOM % (limit - 1) + 1))d\\n" "$count"; done > "$work/next"
    "${words[@]}" < "$work/next" > /dev/null 2>> "$err" || echo "status $?" >> "$work/faulty"
    cat "$work/next" >> "$work/written"
    if ((RANDOM % 2)) && [ -s "$work/next" ]; then part "$folder" "$limit"; fi
  done
  "${words[@]}" <<< e > /dev/null 2>> "$err" || echo "status $?" >> "$work/faulty"
  echo e >> "$work/written"
  # A part at the end of a full file has no newline.
  awk 1 "$folder"/a*.[0-9]* | cmp -s - "$work/written" || echo "limit $limit: not all lines" >> "$work/faulty"
  find "$folder" -type f -size "+${limit}c" -printf "limit $limit: %s bytes\n" >> "$work/faulty"
done
check 'a thousand starts: all lines, and no file above its limit' '' "$(cat "$work/faulty")"

# A log file with a second link, as cp -al leaves it, or of another user, is left as it is. The next number is begun.
left=$work/left
numbered=("${trail[@]}" --max-bytes 1K daily "$left" audit)
run "${numbered[@]}" <<< one
cp -al "$left" "$left.copy"
told=
for line in two three; do
  run "${numbered[@]}" <<< "$line"
  told+="$status$(cat "$err")"
done
check 'a log file with a second link: the starts' 00 "$told"
check 'a log file with a second link: the copy' one "$(cat "$left.copy"/a*.[0-9]*)"
check 'a log file with a second link: all lines' all "$(keeps_all "$left" <(printf 'one\ntwo\nthree\n'))"
run "${trail[@]}" daily "$work/linked" audit < "$lines"
cp -al "$work/linked" "$work/linked.copy"
run "${trail[@]}" daily "$work/linked" audit < "$lines"
check 'a file for the day with a second link: it is refused' yes "$([ "$status" = 1 ] && says 'second hard link' && echo yes || told)"
if [ "$EUID" = 0 ] && has setpriv 'a log file of another user'; then
  rm -rf "$left"
  run "${numbered[@]}" <<< one
  chmod 711 "$work"
  chown 65534 "$left"
  run setpriv --reuid 65534 --regid 65534 --clear-groups "$work/program" "${numbered[@]:1}" <<< two
  check 'a log file of another user: the next number is begun' '0||[two]' "$(told)$(content "$left/latest.log")"
  chmod 700 "$work"
fi

# A kill between an opening and the removal of old files: the next start removes them.
if has strace 'a kill before old files are removed'; then
  folder=$work/killed
  mkdir "$folder"
  for day in 01 02 03; do echo "$day" > "$folder/audit.2020-01-$day.log"; done
  run strace -f -qq -o /dev/null -e trace=unlink,unlinkat -e inject=unlink,unlinkat:signal=KILL:when=1 \
    "${trail[@]}" --keep 2 daily "$folder" audit < "$lines"
  check 'a kill before old files are removed: they are there' '4 3' "$(find "$folder" -name 'audit.*' | wc -l) $(cat "$folder"/audit.2020* | wc -l)"
  run "${trail[@]}" --keep 2 daily "$folder" audit < "$lines"
  check 'a kill before old files are removed: the next start' '0||2 03' "$(told)$(find "$folder" -name 'audit.*' | wc -l) $(cat "$folder"/audit.2020*)"
fi

# ---- a folder without room for one more name

mkdir "$disk"
if mount -t tmpfs -o nr_inodes=12 programs "$disk" 2> "$err"; then
  folder=$disk/logs
  for direct in '' ' --direct'; do
    begin "$rolltee" $direct --keep 5 --max-bytes 1K daily "$folder" app
    echo first >&9
    wait_until eval 'cat "$folder"/a*.[0-9]* 2> /dev/null | grep -q first'
    for ((count = 0; count < 12; count++)); do : > "$disk/other.$count"; done 2> /dev/null
    seq -f 'line %g' 400 >&9
    wait_until says "Couldn't create writer for logs"
    rm -f "$disk"/other.*
    end
    check "rolltee$direct, no room for a name: the status" 0 "$status"
    check "rolltee$direct, no room for a name: all lines" all "$(keeps_all "$folder" <(echo first; seq -f 'line %g' 400))"
    rm -rf "$folder"
  done
else
  skip 'a folder without room for a name' "$(head -1 "$err")"
fi

# ---- calls of the system

if has strace 'calls of the system'; then
  for fault in EROFS ESTALE EFBIG EPERM ENOSPC; do
    folder=$work/waits
    rm -rf "$folder"
    run "${trail[@]}" daily "$folder" audit < /dev/null
    file=$(readlink -f "$folder/latest.log")
    run strace -f -qq -o /dev/null -P "$file" -e trace=write -e "inject=write:error=$fault:when=1..2" "${trail[@]}" \
      daily "$folder" audit < "$lines"
    check "an audit trail, $fault twice" $'0||@writes pause|@writes go on|[one\ntwo]' \
      "$status|$(cat "$out")|$(said | sed 's/:.*//' | paste -s -d '|')|$(content "$folder/latest.log")"
  done

  # syncs COUNT: whether so many syncs were made.
  syncs() {
    [ "$(cat "$work/calls" 2> /dev/null | grep -c '^[0-9]* *fdatasync')" -ge "$1" ]
  }

  # synced BYTES: whether the log has so many bytes, and its last call was a sync.
  synced() {
    [ "$(stat -c %s "$folder/app" 2> /dev/null)" = "$1" ] && tail -n 1 "$work/calls" | grep -q fdatasync
  }

  # paused NAME BYTES PART: so many bytes of lines, then a part of a line, then a pause: the lines are synced.
  paused() {
    folder=$work/paused
    rm -rf "$folder" "$work/calls"
    { yes 'fifteen letters' | head -c $(($2 - 1)); printf '\n%s' "$3"; } > "$work/block"
    begin strace -f -qq -o "$work/calls" -e trace=write,fdatasync "$rolltee" --direct --sync never "$folder" app
    cat "$work/block" >&9
    wait_until synced "$2"
    check "rolltee --direct --sync, a pause after $1: a sync" yes "$(synced "$2" && echo yes || cut -c 1-60 "$work/calls")"
    end
  }
  for bytes in 4 1023 1024 8192 65536; do paused "$bytes bytes" "$bytes" ''; done
  paused '1024 bytes and a part of a line' 1024 part

  # A fast input: blocks of whole lines, and a sync for each MiB.
  folder=$work/blocks
  seq -f '%095.0f' 110000 > "$work/numbers"
  run strace -f -qq -o "$work/calls" -e trace=write,fdatasync "$rolltee" --direct --sync never "$folder" app < "$work/numbers"
  read -r syncs writes cut most <<< "$(awk '
    / write/ { writes++; cut += $NF % 96 > 0; sum += $NF; if (sum > most) most = sum }
    / fdatasync/ { syncs++; sum = 0 }
    END { print syncs + 0, writes + 0, cut + 0, most + 0 }' "$work/calls")"
  name='rolltee --direct --sync, a fast input'
  check "$name" '0||same' "$(told)$(same "$folder/app" "$work/numbers")"
  check "$name: writes that end within a line" 0 "$cut"
  check "$name: a write for many lines" '' "$( ((writes < 14000)) || echo "$writes writes")"
  check "$name: 10 to 20 syncs" '' "$( ((syncs >= 10 && syncs <= 20)) || echo "$syncs syncs")"
  check "$name: a sync for each MiB" '' "$( ((most <= (1 << 20) + 1024 + 96)) || echo "$most bytes without one")"

  # A slow input, whose lines come in two parts: a write for each line, before the next one comes.
  folder=$work/slow
  begin strace -f -qq -o "$work/calls" -e trace=write "$rolltee" --direct never "$folder" app
  for ((number = 1; number <= 20; number++)); do
    printf 'slow ' >&9
    sleep 0.01
    echo "$number" >&9
    wait_until has_lines "$folder/app" "$number" || break
  done
  check 'rolltee --direct, a slow input: each line is there before the next one' 20 "$(line_count "$folder/app")"
  end
  check 'rolltee --direct, a slow input: the writes' 20 "$(wc -l < "$work/calls")"

  # A file that is renamed while it is written is synced before it is let go.
  rm -rf "$work/renamed" "$work/calls"
  begin strace -f -qq -y -o "$work/calls" -e trace=fdatasync "$rolltee" --sync never "$work/renamed" app
  echo one >&9
  wait_until syncs 1
  mv "$work/renamed/app" "$work/renamed/old"
  echo two >&9
  wait_until has_lines "$work/renamed/app" 1
  end
  check 'rolltee --sync, a renamed file: it is synced' yes \
    "$(grep -q 'fdatasync(.*renamed/old' "$work/calls" && echo yes || cat "$work/calls")"

  # Whichever look at a file fails, no line is joined to the part of one that it ends with.
  kept=0 joined=
  for ((look = 1; look <= 12; look++)); do
    rm -rf "$work/looked"
    mkdir "$work/looked"
    printf part > "$work/looked/app"
    run strace -qq -o /dev/null -e trace=statx -e inject=statx:error=EIO:when=$look "$rolltee" --direct --whole-lines never "$work/looked" app < "$lines"
    case $(content "$work/looked/app") in
      '[part]') ;;
      $'[part\none\ntwo]') kept=$((kept + 1)) ;;
      *) joined="$joined $look" ;;
    esac
  done
  check 'rolltee --whole-lines, a look that fails: no line is joined' '' "$joined"
  check 'rolltee --whole-lines, a look that fails: lines' yes "$([ "$kept" -gt 8 ] && echo yes || echo "$kept")"

  # A line that is given up is followed by a flush.
  rm -rf "$work/given" "$work/calls"
  mkdir "$work/given"
  : > "$work/given/app"
  begin strace -f -qq -o "$work/calls" -P "$work/given/app" -e trace=write,fdatasync \
    -e inject=write:error=EIO:when=2 "$rolltee" --sync --no-wait never "$work/given" app
  echo one >&9
  wait_until syncs 1
  { head -c 200000 /dev/zero | tr '\0' x; echo; } >&9
  wait_until says 'lines are lost'
  wait_until syncs 2
  check 'rolltee --sync, a line that is given up: a sync follows' yes "$(syncs 2 && echo yes || cat "$work/calls")"
  end
fi

# ---- runs that are killed

# Numbered lines of 96 bytes: about one a millisecond, or as many as are read.
slow_lines() {
  local number
  for ((number = 1; ; number++)); do
    printf '%095d\n' "$number"
    read -rt 0.001 -u 7
  done
}

fast_lines() {
  exec seq -f '%095.0f' 999999999
}

is_longer() {
  [ "$(stat -c %s "$1" 2> /dev/null || echo 0)" -gt "$2" ]
}

# killed NAME LINES EACH ALL: eight runs that read a pipe of such lines are killed, and a ninth ends. Each kill loses lines of EACH
# bytes at most, and all together ALL. No line is there twice.
killed() {
  local folder=$work/killed.$2 log=$work/killed.$2/app kills length
  exec 7<> "$work/silent" 8<> "$fifo"
  "$2" >&8 8>&- &
  producer=$!
  for ((kills = 0; kills <= 8; kills++)); do
    length=$(stat -c %s "$log" 2> /dev/null || echo 0)
    "$rolltee" --direct --whole-lines never "$folder" app < "$fifo" > "$out" 2> "$err" 8>&- &
    running=$!
    wait_until is_longer "$log" "$length"
    sleep "0.0$((RANDOM % 40 + 10))"
    if ((kills < 8)); then
      kill -KILL "$running"
      { wait "$running"; } 2> /dev/null
    fi
  done
  kill "$producer"
  { wait "$producer"; } 2> /dev/null
  exec 7>&- 8>&-
  wait "$running"
  status=$?
  check "rolltee --direct, $1, kills: the last run" '0||' "$(told)"
  check "rolltee --direct, $1, kills: the lines" '' "$(awk -v each="$3" -v all="$4" '
    length != 95 { parts++; next }
    { lost = ($0 - last - 1) * 96; sum += lost; gaps += lost > 0 }
    lost < 0 || lost > each { print "line " last + 0 ", then " $0 + 0 }
    { last = $0 }
    END { if (NR < 100 || gaps > 8 || parts > 17 || sum > all) print NR " lines, " gaps " gaps, " parts " parts, " sum " bytes" }
    ' "$log")"
}
mkfifo "$work/silent"
# A line each. One kill may lose more, where the run was held up before.
killed '1,000 lines a second' slow_lines $((8 * 96)) $((8 * 96))
# What one read takes, and a line that it cuts at each end.
killed 'at full speed' fast_lines $((1024 + 2 * 96)) $((8 * (1024 + 2 * 96)))

# Waits for the next day if this one has few seconds left.
begin_in_one_day() {
  local left=$((86400 - $(date +%s) % 86400))
  [ "$left" -gt 8 ] || sleep "$left"
}

# ---- a timer that compresses

# The lines that a timer runs, by RUNNING.
archived=$work/archived
timer=$(recipe 'find -H' | sed "s#/var/log/app#$archived#g")

# The names in that folder, without the day.
archived_names() {
  ls "$archived" | sed "s/$(date -u +%F)/D/" | paste -s -d ' '
}

for direct in '' ' --direct'; do
  name="rolltee$direct, a timer"
  rm -rf "$archived"
  mkdir "$archived"
  touch -d '20 days ago' "$archived/app.2020-01-02.gz"
  touch -d '40 days ago' "$archived/app.2020-01-01.gz" "$archived/app.conf"
  begin_in_one_day
  words=("$rolltee" $direct --max-bytes 1K --link latest daily "$archived" app)
  begin "${words[@]}"
  seq 500 >&9
  wait_until eval 'cat "$archived"/app.*[0-9] 2> /dev/null | grep -q 500'
  touch -d '2 hours ago' "$archived"/app.*[0-9]
  eval "$timer"
  check "$name: the names" 'app.2020-01-02.gz app.D.000000.gz app.D.000001 app.conf latest' "$(archived_names)"
  seq 501 700 >&9
  end
  check "$name: the open file goes on" '0||' "$(told)"
  # Then someone compresses the last file too, and the service is started again.
  gzip "$archived"/app.*[0-9]
  seq 701 1000 | run "${words[@]}"
  check "$name, a restart" '0||' "$(told)"
  check "$name, a restart: the names" \
    'app.2020-01-02.gz app.D.000000.gz app.D.000001.gz app.D.000002.gz app.D.000003 app.D.000004 app.conf latest' "$(archived_names)"
  touch -d '2 hours ago' "$archived"/app.*[0-9]
  eval "$timer"
  check "$name, a restart: all lines" same "$(zcat -f "$archived/app.$(date -u +%F)".* | same - <(seq 1000))"
done

# ---- a folder that an earlier version left

# The program that `rolltee --direct` replaces had the same names.
name='an audit trail of an earlier version'
folder=$work/before
mkdir "$folder"
begin_in_one_day
today=audit.$(date -u +%F).log
for day in 1 2 3 4 5 6 7 8; do echo "$day" > "$folder/audit.2020-01-0$day.log"; done
echo before > "$folder/$today"
ln -s "$today" "$folder/latest.log"
touch "$folder/.audit.lock" "$folder/audit.log" "$folder/audit-export.log"
run "${trail[@]}" --keep 7 daily "$folder" audit < "$lines"
check "$name" '0||' "$(told)"
check "$name: today" $'[before\none\ntwo]' "$(content "$folder/latest.log")"
check "$name: the days before" "$(seq 3 8)" "$(cat "$folder"/audit.2020*)"
check "$name: the other names" ".audit.lock audit-export.log $today audit.log latest.log" \
  "$(ls -A "$folder" | grep -v 2020 | paste -s -d ' ')"

conclude
