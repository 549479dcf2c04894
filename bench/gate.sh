#!/usr/bin/env bash
# What the gate costs, piece by piece, from nothing: docs/CHECKING.md keeps the table.
#   bench/gate.sh [OUT [CRATE..]]
exec python3 "$(dirname "$0")/gate.py" "$@"
