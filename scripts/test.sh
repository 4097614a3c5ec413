#!/bin/sh
# test.sh [PART..]: tests the built programs in minutes, without the toolchain. tests/run.sh does it, and says what the parts are.
# The last line is 'N passed, M failed', and with ', K skipped' what could not be checked. Exit status 1: something failed.
exec sh "$(dirname -- "$0")/../tests/run.sh" "$@"
