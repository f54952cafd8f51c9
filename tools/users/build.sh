#!/usr/bin/env bash
# Proves and builds the program, and puts it at build/bml_replay.
set -euo pipefail
cd "$(dirname "${BASH_SOURCE[0]}")/../.."
# (rt run builds what has changed since its last run, and then runs it: so it is asked for no more than its version)
(cd crates/bml_replay && rt run -- --version)
mkdir -p build
install -m 755 crates/bml_replay/out/bml_replay build/bml_replay
