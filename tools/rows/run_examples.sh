#!/usr/bin/env bash
# Runs examples against a built program: run_examples.sh PROGRAM [EXAMPLE..]
#
# With no example named it runs all of them. It makes each stream anew from its description and compares it with the
# file beside it, and where there is a file unpacked.ts it lists and unpacks the stream by prepare_recording.py and compares what that gave. It
# runs the program in a copy of the example's folder, for at most 60 seconds and with 256 MiB of addresses,
# and compares standard output, standard error, status and what is kept with what the example wants: the newest area of the file nvram.jnl
# is to be as nvram.after is, or that file as it was before where there is none. It prints a line for each example, with what differs after it, and a sum.
# Status: 0 where all passed, 1 where one failed, 2 where nothing could be run.
set -uo pipefail

readonly limit=60       # seconds for each run
readonly memory=262144  # KiB of addresses for each run

stop() {
  echo "run_examples.sh: $1" >&2
  exit 2
}

root=$(cd "$(dirname "${BASH_SOURCE[0]}")/../.." && pwd) || stop "its own folder cannot be found"
examples=$root/examples
[ $# -ge 1 ] || stop "usage: run_examples.sh PROGRAM [EXAMPLE..]"
{ [ -f "$1" ] && [ -x "$1" ]; } || stop "$1 is no program: build it first"
program=$(realpath -- "$1") || stop "$1 is no program: build it first"
shift
if [ $# -eq 0 ]; then
  for folder in "$examples"/*/; do set -- "$@" "$(basename "$folder")"; done
fi

room=$(mktemp -d) || stop "no temporary folder can be made"
trap 'rm -rf "$room"' EXIT

# Prints what is wrong with the stream of an example.
check_stream() {
  if [ -f "$1/stream.txt" ]; then
    python3 -B "$root/tools/users/make_stream.py" "$1/stream.txt" "$room/stream.ts" 2>&1 || { echo "stream.txt describes no stream"; return; }
    cmp "$room/stream.ts" "$1/stream.ts" 2>&1 || echo "stream.ts is not what stream.txt describes"
  elif [ -e "$1/stream.ts" ]; then
    echo "stream.ts has no description stream.txt"
  fi
}

# Prints how what prepare_recording.py makes of the stream differs from what an example wants.
check_recording() {
  [ -f "$1/unpacked.ts" ] || return
  python3 -B "$root/tools/users/prepare_recording.py" list "$1/stream.ts" 2>&1 | diff --unified --label "wanted list" --label list "$1/list" -
  python3 -B "$root/tools/users/prepare_recording.py" unpack "$1/stream.ts" "$room/unpacked.ts" 2>&1 \
    | diff --unified --label "wanted told" --label told "$1/told" -
  cmp "$room/unpacked.ts" "$1/unpacked.ts" 2>&1
}

# Prints how what the program did differs from what an example wants.
check_run() {
  local words status=0
  for file in args stdout stderr status; do
    [ -f "$1/$file" ] || { echo "the file $file is missing"; return; }
  done
  mapfile -t words <"$1/args"
  rm -rf "$room/run"
  cp -R "$1" "$room/run" || { echo "the folder cannot be copied"; return; }
  (cd "$room/run" && ulimit -v "$memory" && exec timeout "$limit" "$program" "${words[@]}") >"$room/stdout" 2>"$room/stderr" </dev/null || status=$?
  for file in stdout stderr; do
    diff --text --unified --label "wanted $file" --label "$file" "$1/$file" "$room/$file" 2>&1
  done
  [ "$status" = "$(cat "$1/status")" ] || echo "the status is $status, and $(cat "$1/status") is wanted"
  check_kept "$1"
}

# Prints how what is kept after the run differs from what an example wants.
check_kept() {
  local journal=$room/run/nvram.jnl
  if [ -e "$1/nvram.after" ]; then
    python3 -B "$root/tools/rows/journals.py" "$room/run" | cmp "$1/nvram.after" - 2>&1
  elif [ -e "$1/nvram.jnl" ]; then
    cmp "$1/nvram.jnl" "$journal" 2>&1
  elif [ -e "$journal" ]; then
    echo "nvram.jnl was written, and nothing is to be kept"
  fi
}

failed=0
for name in "$@"; do
  if [ -d "$examples/$name" ]; then
    differs=$(check_stream "$examples/$name"; check_recording "$examples/$name"; check_run "$examples/$name")
  else
    differs="there is no such example"
  fi
  if [ -z "$differs" ]; then
    echo "ok      $name"
  else
    echo "FAILED  $name"
    sed 's/^/        /' <<<"$differs"
    failed=$((failed + 1))
  fi
done
echo "examples: $(($# - failed)) passed, $failed failed"
[ "$failed" -eq 0 ]
