#!/bin/sh
# Runs the test cases, for `make cases`: command lines by the program, and calls by test_calls.
#
#     cases.sh PROGRAM CALLS
#
# Of the wrong ones none may hold. If rt ci has built the programs by Rattle's own compiler, these are run too, but for
# sweeps over many files and failures.
set -eux
program=$1
calls=$2
run_cases() {
	PYTHONPATH=tools/format python3 -B tests/run_cases.py "$@"
}

# The files of test cases but those with these names, which are joined by |.
cases_but() {
	ls tests/cases/*.cases | grep -vE "/($1)\.cases\$"
}

run_cases "$program" "$calls" $(cases_but wrong)
run_cases "$program" "$calls" --none tests/cases/wrong.cases >/dev/null
if [ -e "$program.by-rattle" ] && [ -e "$calls.by-rattle" ]; then
	run_cases "$program.by-rattle" "$calls.by-rattle" $(cases_but "wrong|sweep_changes|sweep_failures")
fi
