#!/usr/bin/env bash
# The job program answers as document 01 says: the examples, the stored jobs and many others, by
# tests/job_texts.py; and the list of examples and the help are right.
set -euo pipefail
unset CDPATH
cd "$(dirname "$0")/.."

command=bin/wharfgrain
room=$(mktemp -d)
trap 'rm -rf "$room"' EXIT

fail() {
    echo "tests/job_texts.sh: $*" >&2
    exit 1
}

# each example is in the list of examples, and each of the list is there
for job in examples/*.job; do
    name=$(basename "$job" .job)
    grep -qF "[$name]($name.job) | " examples/README.md || fail "examples/README.md does not say what $name teaches"
done
listed=$(grep -c '^| \[' examples/README.md)
there=$(find examples -name '*.job' | wc -l)
[ "$listed" -eq "$there" ] || fail "examples/README.md lists $listed examples, and there are $there"

# the help shows a job and its answer that are right, and README the answer to its first command
"$command" --help >"$room/help"
sed -n 's/^    \([a-z]*=[0-9A-F]*\)  .*/\1/p' "$room/help" | grep -v '^status=' >"$room/job"
sed -n '/the job above gives/,/^or,/s/^    \([a-z]*=[0-9A-F]*\)$/\1/p' "$room/help" >"$room/due"
[ -s "$room/due" ] || fail "the help has no answer"
"$command" "$room/job" >"$room/answer" || fail "the help's job was not answered"
cmp "$room/answer" "$room/due" || fail "the help's answer is not that of its job"
sed -n 's/^    \([a-z]*=[0-9A-F]*\)$/\1/p' README.md | cmp - examples/document-01.answer || fail "README's answer is not that of its first command"

. scripts/python.sh
need_python
python3 tests/job_texts.py "$command"
