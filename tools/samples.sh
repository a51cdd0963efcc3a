#!/bin/sh
# Holds the program report to docs/monday.trace and docs/report-samples: what it writes for NAME.trace is NAME.expect. The gate runs it once the program is proved.
set -eu
cd "$(dirname "$0")/.."
status=0
for trace in docs/monday.trace docs/report-samples/*.trace; do
    if ! ./report "$trace" | cmp - "${trace%.trace}.expect"; then
        echo "samples: $trace: the report is another one" >&2
        status=1
    fi
done
exit $status
