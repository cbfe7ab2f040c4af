#!/usr/bin/env bash
# Tries ./domcheck, the script that builds and starts the program, and ./domcheck-unproved, with stand-ins for
# rt and for the program: nothing is proved. Prints each case that fails, and last 'N passed, M failed'; ends
# with 1 where one fails.
set -u
top=$(cd "$(dirname "$0")/.." && pwd)
room=$(mktemp -d)
trap 'rm -rf "$room"' EXIT
copy=$room/copy
source_file=$copy/crates/text_tokens/src/words.rt
passed=0 failed=0

mkdir -p "$room/bin" "$copy/domlogic" "$copy/crates/domcheck_cli/data" "$copy/crates/text_tokens/src" \
  "$copy/crates/laws/src"
cp "$top/domcheck" "$top/domcheck-unproved" "$copy"
# The program stands on two of these crates beside its own.
cat >"$copy/crates.txt" <<'END'
# NAME: DEP DEP ..
outside_io:
text_tokens: outside_io unicode_ident
laws: text_tokens
domcheck_cli: outside_io text_tokens
tests: laws domcheck_cli
END
cp "$top/crates/text_tokens/src/words.rt" "$source_file"

# The program: says its words, and ends with the status $ENDS.
cat >"$room/program" <<'END'
#!/usr/bin/env bash
echo "asked $*"
exit "${ENDS:-0}"
END
# The package: says what it is given, and ends with the status $ENDS.
cat >"$copy/domlogic/__main__.py" <<'END'
import os
import sys
print("answered", *(os.path.basename(it) for it in sys.argv[1:]))
sys.exit(int(os.environ["ENDS"]))
END
# rt: as $BUILD says, all is proved; a proof is open; the sources don't compile; or the program isn't linked. Under
# try it names what it is given, and ends as the program does, or in no answer.
cat >"$room/bin/rt" <<'END'
#!/usr/bin/env bash
if [ "$1 $2" = "all check" ]; then
  [ "$BUILD" = unread ] && { echo "rt: mend these first"; exit 1; }
  [ "$(basename "$PWD")" = domcheck_cli ] || { echo "rt: not in the crate of the program"; exit 1; }
  for name in outside_io text_tokens domcheck_cli; do
    echo "== $name"
    [ "$BUILD $name" = "open text_tokens" ] && echo "the goal is open"
  done
  echo "== summary"
  [ "$BUILD" = open ] && { echo "text_tokens: failed (1)"; exit 1; }
  exit 0
fi
if [ "$1" = try ]; then
  [ "$BUILD" = unread ] && { echo "run=none proved=no" >&2; exit 1; }
  echo "tried $*"
  echo "run=ended status=$ENDS runners=1 proved=no" >&2
  exit "$ENDS"
fi
[ "$BUILD" = unlinked ] && { echo "no program"; exit 3; }
mkdir -p out && cp "$PROGRAM" out/domcheck_cli && chmod +x out/domcheck_cli
END
chmod +x "$room/bin/rt" "$room/program"
export PATH=$room/bin:$PATH PROGRAM=$room/program BUILD=proved ENDS=0 SCRIPT=domcheck

# case_of NAME STATUS OUTPUT PART WORD..: runs the script $SCRIPT on the words; the output is the one given, and
# standard error has the part, or is empty where that is.
case_of() {
  local name=$1 status=$2 output=$3 part=$4 found said
  shift 4
  found=$("$copy/$SCRIPT" "$@" 2>"$room/said")
  local ended=$?
  said=$(cat "$room/said")
  if [ "$ended" = "$status" ] && [ "$found" = "$output" ] \
    && { [ -n "$part" ] && [[ $said == *"$part"* ]] || [ -z "$part$said" ]; }; then
    passed=$((passed + 1))
  else
    failed=$((failed + 1))
    printf '%s: ended with %s, printed %s, and said %s\n' "$name" "$ended" "$found" "$said"
  fi
}

change() {
  sleep 0.01
  echo "// $1" >>"$source_file"
}

BUILD=unread case_of "sources that don't compile" 70 '' 'rt: mend these first' check a
BUILD=open case_of "an open proof" 70 '' 'the goal is open' check a
BUILD=unlinked case_of "no program" 70 '' 'no program' check a
case_of "the first build" 0 'asked check a' "3 of 3 crates done" check a
case_of "a program that is current" 0 'asked check a b' '' check a 'b'
BUILD=open case_of "a program that is current isn't built again" 0 'asked ' ''
sleep 0.01
touch "$source_file"
BUILD=open case_of "a source that is newer and has the same text" 0 'asked check a' '' check a
change one
BUILD=open case_of "a changed source, and an open proof" 70 '' 'the program of the last build still stands' check a
cp "$top/crates/text_tokens/src/words.rt" "$source_file"
BUILD=open case_of "the change is taken back" 0 'asked check a' '' check a
change of_prove
case_of "a changed source, and prove" 0 'answered --program domcheck prove a' 'built, after' prove a
change two
case_of "a changed source" 0 'asked check a' 'built, after' check a
sleep 0.01
touch "$copy/crates/text_tokens/src/new.rt"
case_of "a new source" 0 'asked check a' 'built, after' check a
rm "$copy/crates/text_tokens/src/new.rt"
case_of "a removed source" 0 'asked check a' 'built, after' check a
sleep 0.01
echo "// laws" >"$copy/crates/laws/src/lib.rt"
BUILD=open case_of "a changed crate on which the program doesn't stand" 0 'asked check a' '' check a
rm -r "$copy/out"
BUILD=open case_of "the program that the gate built" 0 'asked check a' '' check a
for ends in 1 2 3 5 6 7 8 9; do
  ENDS=$ends case_of "status $ends" "$ends" 'asked check a' '' check a
done
of_package='answered --program domcheck'
for word in prove explain; do
  ENDS=9 case_of "$word, status 9" 9 "$of_package $word a b" '' "$word" 'a b'
  ENDS=11 case_of "$word, no file" 11 "$of_package $word a" 'could not read a: there is no such file' "$word" a
done
case_of "show" 0 "$of_package show a p" '' show a p
case_of "page" 0 "$of_package page a p d 9" '' page a p d 9
ENDS=11 case_of "page, no document" 11 "$of_package page a p d 9" 'could not read a: there' page a p d 9
ENDS=11 case_of "page in a file" 11 "$of_package page --to b a p d 9" 'could not read a: there' page --to b a p d 9
ENDS=2 case_of "prove, bad words" 2 "$of_package prove" '' prove
mkdir "$room/bare" && for tool in bash cat awk sort find readlink dirname grep; do
  ln -s "$(command -v "$tool")" "$room/bare"
done
PATH=$room/bare case_of "prove without python3" 70 '' 'python3 is not on PATH' prove a
ENDS=10 case_of "no memory" 10 'asked check a' 'out of memory' check a
ENDS=11 case_of "no file" 11 'asked check a' 'could not read a: there is no such file' check a
ENDS=11 case_of "a folder" 11 "asked check $room" "could not read $room: it is a folder" check "$room"
ENDS=12 case_of "no output" 12 'asked check a' 'the output could not be written' check a

SCRIPT=domcheck-unproved
cd "$room" || exit 1
touch doc 'a b'
tried='tried try --seconds 600'
case_of "unproved" 0 "$tried -- check missing" 'no proof stands behind this answer' check missing
case_of "unproved, a file" 0 "$tried --data the_file=$room/a b -- check the_file" 'no proof' check 'a b'
case_of "unproved, a run" 0 "$tried --data the_file=$room/doc --data the_document=$room/a b -- run the_file p the_document 5 doc" \
  'no proof' run "$room/doc" p 'a b' 5 doc
case_of "unproved, no words" 0 "$tried --" 'no proof'
ENDS=1 case_of "unproved, status 1" 1 "$tried -- check missing" 'no proof' check missing
BUILD=unread case_of "unproved, sources that don't compile" 70 '' 'the program gave no answer' check a

echo "$passed passed, $failed failed"
[ "$failed" -eq 0 ]
