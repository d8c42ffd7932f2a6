#!/bin/sh
# The gate: each proof, the edits that everybody should see refused, each test and each program, and the
# Python client.
set -eu

cd -- "$(dirname -- "$0")"
exec ./.ci/run
