#!/usr/bin/env bash
# Runs random commands for an hour, or for so many seconds, and judges what each leaves; outside the gate.
exec python3 "$(dirname "$0")/soak/run.py" "$@"
