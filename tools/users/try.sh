#!/usr/bin/env bash
# Runs the program without any proof: try.sh STREAM RECORD [--service N | --data-pid N]
#
# It compiles the program as it stands, which takes a minute or two, and runs it once over the two files, wherever they lie. Nothing is
# proved by that, and nothing is kept: tools/users/build.sh proves and builds the program. The run stops at an index out of bounds, an overflow
# or a bad access. It has ten minutes, and writes 1 MiB at most. Its status is the program's, or 4 where the run was stopped.
set -euo pipefail

usage() {
  echo "usage: tools/users/try.sh STREAM RECORD [--service N | --data-pid N]" >&2
  exit 1
}

[ $# -eq 2 ] || [ $# -eq 4 ] || usage
stream=$1 record=$2
shift 2
for file in "$stream" "$record"; do
  [ -f "$file" ] || { echo "try.sh: there is no file $file" >&2; exit 3; }
done
# (each packet begins with the byte of G, and no line of a record does)
if [ "$(head -c 1 -- "$record" | tr -d '\0')" = G ] && [ "$(head -c 1 -- "$stream" | tr -d '\0')" != G ]; then
  echo "try.sh: $record begins as a stream does, and $stream doesn't: name the stream first" >&2
  exit 1
fi
stream=$(realpath -- "$stream")
record=$(realpath -- "$record")
command -v rt >/dev/null || { echo "try.sh: rt, the command of the Rattle toolchain, is not on the PATH" >&2; exit 2; }

cd "$(dirname "${BASH_SOURCE[0]}")/../../crates/bml_replay"
echo "Compiling without proof, a minute or two. Nothing is proved by this run." >&2
exec rt try --seconds 600 --data "stream.ts=$stream" --data "record.txt=$record" -- replay "$@" stream.ts record.txt
