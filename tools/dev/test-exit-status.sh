#!/bin/sh
# Runs tier-replay where it must fail, and compares the exit status with what the contract of `status` says. With the path of a
# binary it runs that one, else the one that the last run of the gate or of rt run left.
set -eu
cd "$(dirname "$0")/../.."
program=${1:-crates/tier_replay/out/tier_replay}
if [ ! -x "$program" ]; then
    (cd crates/tier_replay && rt run -- --limit 1 < /dev/null > /dev/null)
fi
trace=examples/first-run.jsonl

# status WANTED WHAT: the status of the last command was WANTED
wanted() {
    if [ "$got" -ne "$1" ]; then
        echo "exit status $got and not $1: $2"
        exit 1
    fi
}

# Each run has its own streams, so the commands stand alone.
got=0; "$program" --limit 100 < "$trace" > /dev/null 2>&1 || got=$?
wanted 0 "a trace"
got=0; "$program" --help < /dev/null > /dev/null 2>&1 || got=$?
wanted 0 "--help"
got=0; "$program" --version < /dev/null > /dev/null 2>&1 || got=$?
wanted 0 "--version"
for words in "" "--limit" "--limit x" "--limit 1 --shards 3" "--limit 1 --age x" "--limit 1 --wait -1" "--limit 1 --old 1" "--limit 1 more"; do
    # shellcheck disable=SC2086
    got=0; "$program" $words < "$trace" > /dev/null 2>&1 || got=$?
    wanted 2 "options '$words'"
done
got=0; "$program" --limit 100 --recency "" < "$trace" > /dev/null 2>&1 || got=$?
wanted 2 "an empty text as the directory"
got=0; "$program" --limit "$(printf '\377')" < "$trace" > /dev/null 2>&1 || got=$?
wanted 2 "a word that is not UTF-8"
got=0; "$program" --limit 100 < / > /dev/null 2>&1 || got=$?
wanted 1 "a directory as standard input"
if [ -c /dev/full ]; then
    got=0; "$program" --limit 100 < "$trace" > /dev/full 2> /dev/null || got=$?
    wanted 1 "a full device as standard output"
    got=0; "$program" --help < /dev/null > /dev/full 2> /dev/null || got=$?
    wanted 1 "--help to a full device"
fi
echo "tier-replay: exit statuses as expected"
