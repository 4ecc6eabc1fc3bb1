#!/bin/sh
# A study by a dask scheduler and two workers on this machine gives byte for byte what one run gives. The Python is the one that
# has the package distributed: /usr/bin/python3 with Debian's python3-distributed, or PYTHON. The program is that of ASON, or the
# script `ason`.
cd "$(dirname "$0")/.." || exit 1
python=${PYTHON:-/usr/bin/python3}
room=$(mktemp -d)
PYTHONPATH=$PWD/tools
export PYTHONPATH

end() {
    # shellcheck disable=SC2086  # each is a number
    kill $started 2>"$room/ended"
    wait
    rm -rf "$room"
}
started=
trap end EXIT

"$python" -m distributed.cli.dask_scheduler --host 127.0.0.1 --port 0 --no-dashboard --no-show \
    --scheduler-file "$room/scheduler" >"$room/scheduler.log" 2>&1 &
started="$started $!"
for number in 1 2; do
    "$python" -m distributed.cli.dask_worker --host 127.0.0.1 --nthreads 1 --no-dashboard --local-directory "$room/$number" \
        --name "worker-$number" --scheduler-file "$room/scheduler" >"$room/worker-$number.log" 2>&1 &
    started="$started $!"
done

tries=0
until [ -s "$room/scheduler" ]; do
    tries=$((tries + 1))
    if [ "$tries" -gt 300 ]; then
        cat "$room"/*.log
        echo "dask: no scheduler came up"
        exit 1
    fi
    sleep 0.1
done
address=$("$python" -c 'import json, sys; print(json.load(open(sys.argv[1]))["address"])' "$room/scheduler")
"$python" -c 'import sys; from distributed import Client; Client(sys.argv[1]).wait_for_workers(2, timeout=60)' "$address" || exit 1

passed=0
for study in "study-cuts examples/apart.toml --pairs --json" "study-load --labels 2 --most 20 --step 10 --trials 4 --csv" \
    "study-erlang examples/nsfnet.toml --arrivals 50 --least 10 --most 20 --seeds 2"; do
    # shellcheck disable=SC2086  # the words stand apart by spaces
    set -- $study
    tool=$1
    shift
    "$python" "tools/$tool" "$@" --jobs 1 >"$room/alone" || exit 1
    "$python" "tools/$tool" "$@" --dask "$address" >"$room/cluster" || { cat "$room"/*.log; exit 1; }
    if ! cmp "$room/alone" "$room/cluster"; then
        echo "dask: $study gives something else on the cluster"
        exit 1
    fi
    passed=$((passed + 1))
done
"$python" -c '
import sys
from distributed import Client
counts = Client(sys.argv[1]).run(lambda dask_worker: dask_worker.state.executed_count)
sys.exit(len(counts) != 2 or not all(counts.values()))' "$address" || { echo "dask: a worker made no run"; exit 1; }
echo "dask: $passed studies give on two workers what they give in one run"
