#!/usr/bin/env bash
# Copies a small library, and this one, into other repositories by `add-to`, and compares what is there then. The examples
# of the pages are compiled and run there. Each check that fails prints a line, and the last line is `N passed, M failed`. It
# ends within minutes and leaves nothing.
set -u
export LC_ALL=C
unset GIT_DIR GIT_WORK_TREE GIT_INDEX_FILE

top=$(cd "$(dirname "${BASH_SOURCE[0]}")/../.." && pwd -P)
work=$(cd "$(mktemp -d)" && pwd -P)
trap 'rm -rf "$work"' EXIT
trap 'exit 1' INT TERM
library=$work/library
passed=0
failed=0

# check NAME WANTED GOT
check() {
  if [ "$2" = "$3" ]; then
    passed=$((passed + 1))
  else
    failed=$((failed + 1))
    printf 'FAILED %s: got %q wanted %q\n' "$1" "$3" "$2"
  fi
}

# add FOLDER..: runs the small library's `add-to`, and prints its status and both streams.
add() {
  "$library/add-to" "$@" > "$work/out" 2> "$work/err"
  echo "$?|$(cat "$work/out")|$(cat "$work/err")"
}

# said NUMBER VERSION FOLDER: what add-to prints after it has copied this number of crates.
said() {
  echo "$1 crates of version $2 are in $3/crates, and their lines in $3/crates.txt.
There list those that your crate names, as in  my_service: appender_log appender_names log tracing_appender
Its first rt check proves them too, once: about ten minutes on four cores. rt try proves nothing."
}

# The files below a folder with their contents, but for the commit.
all_of() {
  (cd "$1" && find . -type f | sort | while IFS= read -r file; do
    echo "$file: $(grep -v '^commit: ' "$file" | paste -sd '|')"
  done)
}

# A line of the small library's VERSION in a repository: its name, the repository.
version() {
  sed -n "s/^$1: //p" "$2/crates/tracing_appender/VERSION"
}

# crate NAME TEXT: a crate of the small library.
crate() {
  mkdir -p "$library/crates/$1/src" "$library/crates/$1/out"
  echo "$2" > "$library/crates/$1/src/lib.rt"
  touch "$library/crates/$1/out/program"
}

# ---- a small library

mkdir "$library"
cp "$top/add-to" "$library"
printf '# Changelog\n\nWhat a number says.\n\n## 1.0.0\n\n- All.\n\n## 0.9.0\n' > "$library/CHANGELOG.md"
echo 'Handles allowed: Threads, Wait.' > "$library/HANDLES"
echo licence > "$library/LICENSE"
for name in tracing_appender appender_log lower dated other; do crate "$name" "$name 1"; done
echo old > "$library/crates/lower/src/old.rt"
printf '%s\n' 'lower: jiff' 'dated:' 'tracing_appender: lower dated' 'appender_log: lower log' 'other: lower' \
  > "$library/crates.txt"
first="./HANDLES: Handles allowed: Threads, Wait.
./crates.txt: lower: jiff|dated:|tracing_appender: lower dated|appender_log: lower log
./crates/appender_log/src/lib.rt: appender_log 1
./crates/dated/src/lib.rt: dated 1
./crates/lower/src/lib.rt: lower 1
./crates/lower/src/old.rt: old
./crates/tracing_appender/LICENSE: licence
./crates/tracing_appender/VERSION: version: 1.0.0|crates: lower dated tracing_appender appender_log
./crates/tracing_appender/src/lib.rt: tracing_appender 1"

check 'no argument' "2||usage: $library/add-to REPOSITORY" "$(add)"
check 'two arguments' "2||usage: $library/add-to REPOSITORY" "$(add "$work/a" "$work/b")"
check 'an empty argument' "2||usage: $library/add-to REPOSITORY" "$(add '')"
check 'an option' "2||usage: $library/add-to REPOSITORY" "$(cd "$work" && add --help)"
check 'a file' "2||usage: $library/add-to REPOSITORY" "$(add "$library/LICENSE")"
check 'itself' "2||$library/add-to: $library is the library itself" "$(add "$library/crates/..")"

app="$work/an app/below"
check 'a folder that is not there' "0|$(said 4 1.0.0 "$app")|" "$(add "$app")"
check 'a folder that is not there: all is copied' "$first" "$(all_of "$app")"
check 'nothing else is in crates' 'appender_log dated lower tracing_appender' "$(ls -A "$app/crates" | paste -sd ' ')"
check 'again' "0|$(said 4 1.0.0 "$app")|" "$(add "$app")"
check 'again: all is the same' "$first" "$(all_of "$app")"
check 'no checkout' unknown "$(version commit "$app")"

# ---- a repository with crates of its own, before and after an update

own=$work/own
mkdir -p "$own/crates/service/src" "$own/crates/dates/src"
echo mine > "$own/crates/service/src/lib.rt"
echo mine > "$own/crates/dates/src/lib.rt"
printf 'service: dates dated tracing_appender\nlower: an older line\ndates: jiff' > "$own/crates.txt"
check 'own crates' "0|$(said 4 1.0.0 "$own")|" "$(add "$own")"
check 'own crates: lines are replaced where they are, others stay' \
  'service: dates dated tracing_appender|lower: jiff|dates: jiff|dated:|tracing_appender: lower dated|appender_log: lower log' \
  "$(paste -sd '|' "$own/crates.txt")"

rm -r "$library/crates/lower/src/old.rt" "$library/crates/dated"
echo 'lower 2' > "$library/crates/lower/src/lib.rt"
echo new > "$library/crates/lower/src/new.rt"
crate added 'added 1'
printf '%s\n' 'added:' 'lower: added' 'tracing_appender: lower' 'appender_log: lower log' > "$library/crates.txt"
sed -i 's/^## 1.0.0/## 1.1.0\n\n&/' "$library/CHANGELOG.md"
second="./HANDLES: Handles allowed: Threads, Wait.
./crates.txt: lower: added|tracing_appender: lower|appender_log: lower log|added:
./crates/added/src/lib.rt: added 1
./crates/appender_log/src/lib.rt: appender_log 1
./crates/lower/src/lib.rt: lower 2
./crates/lower/src/new.rt: new
./crates/tracing_appender/LICENSE: licence
./crates/tracing_appender/VERSION: version: 1.1.0|crates: added lower tracing_appender appender_log
./crates/tracing_appender/src/lib.rt: tracing_appender 1"

check 'an update' "0|$(said 4 1.1.0 "$app")|" "$(add "$app")"
check 'an update: what is gone goes, what is new comes' "$second" "$(all_of "$app")"
check 'an update beside own crates' \
  "0|$(said 4 1.1.0 "$own")|$library/add-to: the library no longer has dated, which crates.txt lists for: service" "$(add "$own")"
check 'an update: own lines stay' \
  'service: dates dated tracing_appender|lower: added|dates: jiff|tracing_appender: lower|appender_log: lower log|added:' \
  "$(paste -sd '|' "$own/crates.txt")"
check 'an update: own crates stay' 'mine mine' "$(cat "$own"/crates/{service,dates}/src/lib.rt | paste -sd ' ')"

rm "$app/crates/tracing_appender/VERSION"
echo changed > "$app/crates/lower/src/lib.rt"
check 'a copy without a VERSION' "0|$(said 4 1.1.0 "$app")|" "$(add "$app")"
check 'a copy without a VERSION: all is as in a new one' "$second" "$(all_of "$app")"

taken=$work/taken
mkdir -p "$taken/crates/lower/src"
echo mine > "$taken/crates/lower/src/lib.rt"
before=$(all_of "$taken")
check 'an own crate with the name of one' \
  "1||$library/add-to: $taken/crates/lower is not a copy of this library's crate, so nothing was copied" "$(add "$taken")"
check 'an own crate with the name of one: nothing is changed' "$before" "$(all_of "$taken")"

# ---- HANDLES

# handles LINE WORD..: the words are reported, and the line stays.
handles() {
  local target=$work/handles line=$1 word wanted=
  shift
  mkdir -p "$target"
  echo "$line" > "$target/HANDLES"
  for word in "$@"; do
    wanted=$wanted${wanted:+$'\n'}"$library/add-to: $target/HANDLES does not allow $word, which a queue needs"
  done
  check "HANDLES '$line'" "0|$(said 4 1.1.0 "$target")|$wanted" "$(add "$target")"
  check "HANDLES '$line': it stays" "$line" "$(cat "$target/HANDLES")"
}

handles 'Handles allowed: none.' Threads Wait
handles 'Handles allowed: Threads.' Wait
handles 'Handles allowed: Wait, Net.' Threads
handles 'Handles allowed: Threads, Wait, Net.'

# ---- the commit

if command -v git > /dev/null; then
  git() { command git -C "$1" -c user.name=x -c user.email=x@x -c commit.gpgsign=false "${@:2}" > /dev/null 2>&1; }
  git "$work" init
  git "$work" commit --allow-empty -m outer
  add "$app" > /dev/null
  check 'a folder in another checkout' unknown "$(version commit "$app")"
  git "$library" init
  add "$app" > /dev/null
  check 'a checkout without a commit' 'unknown, with changes' "$(version commit "$app")"
  git "$library" add -A
  git "$library" commit -m library
  commit=$(command git -C "$library" rev-parse HEAD)
  add "$app" > /dev/null
  check 'a checkout' "$commit" "$(version commit "$app")"
  GIT_DIR=$work/.git add "$app" > /dev/null
  check 'a checkout, in a hook of another one' "$commit" "$(version commit "$app")"
  touch "$library/crates/lower/src/untracked.rt"
  add "$app" > /dev/null
  check 'a checkout with a new file' "$commit, with changes" "$(version commit "$app")"
  rm "$library/crates/lower/src/untracked.rt"
  echo 'lower 3' > "$library/crates/lower/src/lib.rt"
  add "$app" > /dev/null
  check 'a checkout with a changed file' "$commit, with changes" "$(version commit "$app")"
fi

# ---- this library

library=$top
whole=$work/whole
check 'this library' "0|$(said "$(ls "$top/crates" | grep -cE '^(appender_|line_history$|tracing_appender$)')" "$(sed -n 's/^## \([0-9.]*\).*/\1/p' "$top/CHANGELOG.md" | head -n 1)" "$whole")|" "$(add "$whole")"
check 'this library: each crate has a line' "$(ls -A "$whole/crates")" "$(cut -d: -f1 "$whole/crates.txt" | sort)"
check 'this library: its version is a number' 1 "$(version version "$whole" | grep -cE '^[0-9]+\.[0-9]+\.[0-9]+$')"
for name in $(ls "$whole/crates"); do
  check "this library: $name" '' \
    "$(diff -r -x out -x LICENSE -x VERSION "$top/crates/$name" "$whole/crates/$name" 2>&1)"
done

# ---- the examples of README and CALLING, and what no fake of files shows, in one crate there

source=$whole/crates/examples/src
mkdir -p "$source"
echo 'examples: appender_log appender_names log tracing_appender' >> "$whole/crates.txt"
awk -v folder="$source" '
  /^```rust$/ { file = folder "/example_" ++count ".rt"; next }
  /^```$/ { file = "" }
  file { print > file }
' "$top/README.md" "$top/docs/CALLING.md"
check 'the pages have examples' 6 "$(ls "$source" | wc -l)"
# The runtime starts threads in `main`, or in a test.
sed -i 's/^fn main(/#[test]\n&/' "$source"/*
cat > "$source/mode.rt" <<'END'
use std::os::unix::fs::MetadataExt;
use std::test::Fail;
use std::{fs, io};
use tracing_appender::folder::DirFolder;
use tracing_appender::store::Folder;

#[test]
fn is_that_of_a_new_file(rt: HostRuntime) -> Result<(), Fail> {
    DirFolder::new(rt, "")?.mode(0o640).open("app.log")?;
    assert_eq!(rt; fs::metadata(&rt, "app.log")?.mode(), 0o100640);
    Ok(())
}
END
cat > "$source/dropped.rt" <<'END'
use appender_log::start;
use log::{Log, info};
use std::io;
use std::io::Write;

#[derive(Drop)]
struct Full;

impl Write for Full {
    fn write(&mut self, _buf: &[u8]) -> io::Result<usize> {
        Err(io::Error::other("full"))
    }

    fn flush(&mut self) -> io::Result<()> {
        Ok(())
    }
}

#[test]
fn says_what_was_lost(rt: HostRuntime) -> io::Result<()> {
    let log = start(rt, Full)?;
    info!(log; "lost");
    Ok(())
}
END
modules=$(basename -a -s .rt "$source"/*)
{
  printf '%s\n' '#![tactic(auto)]' 'use std::io;' 'use std::io::Write;'
  printf '#[cfg(test)]\nmod %s;\n' $modules
  printf '%s\n' 'pub fn log_start<W: Write>(log: &mut W, name: &str) -> io::Result<()> {' '    writeln!(log, "started {name}")' '}'
} > "$source/lib.rt"
(cd "$whole/crates/examples" && rt try --test) > "$work/said" 2>&1
tests=$(grep -l '^#\[test\]$' "$source"/* | xargs basename -a -s .rt)
check 'the tests that pass' "$(paste -sd ' ' <<< "$tests")" "$(sed -n 's/^test \([a-z0-9_]*\)::[a-z_]* \.\.\. ok$/\1/p' "$work/said" | sort | paste -sd ' ')"
check 'a log that is dropped says what was lost' 'lines not written whole: 1' "$(sed -n 's/^ *appender_log: //p' "$work/said")"

echo "$passed passed, $failed failed"
[ "$failed" = 0 ]
