#!/bin/sh
# The reference as a program, so that cases can be run over it: python3 -m tests.cases tests/oracle.sh clients topics
top=$(dirname "$(dirname "$(realpath "$0")")")
PYTHONPATH="$top" exec python3 -m tests.oracle "$@"
