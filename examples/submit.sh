#!/bin/sh
# Submits a file, looks until it is settled, submits another one and cancels it.
#     sh submit.sh [URL [PROGRAM]]
# The service has the settings of examples/fts.toml; the source lies in its folder as grid/https:,,a.example/data/f1.
# PROGRAM is fts as it was built, on the machine of the service, whose port ends the URL. Where it is named it submits the first file: it asks again
# where an answer is lost or the service is being started, and the document's own id lets that make one job. curl would have to be told to repeat, and
# asks for all the rest.
# A refusal ends it with status 1, with the refusal's message, or its status, on standard error.
set -eu
url=${1:-http://127.0.0.1:8080}
program=${2:-}

field() { sed -n "s/.*\"$1\":\"\\([^\"]*\\)\".*/\\1/p"; }

# Asks the service, and prints the body of its answer. curl asks with some bodies whether it may go on (Expect: 100-continue), and waits a second for
# an answer that the service never gives: an empty Expect leaves that out.
ask() {
    answer=$(curl -sS --fail-with-body -H 'Expect:' "$@") || {
        echo "refused: $(echo "${answer:-no answer}" | sed 's/.*"message":"\([^"]*\)".*/\1/')" >&2
        return 1
    }
    echo "$answer"
}

# The document that copies the file to a place, with these parameters besides.
document() {
    echo "{\"files\":[{\"sources\":[\"https://a.example/data/f1\"],\"destinations\":[\"https://b.example/$1\"]}],\"params\":{\"overwrite\":true$2}}"
}

submit() {
    answer=$(ask -X POST "$url/jobs" -d "$(document "$1" "$2")") || return 1
    echo "$answer" | field job_id
}

# Submits a document that has an id of its own, by the time and this process, until it is known to have its job.
submit_once() {
    document "$1" ",\"id_generator\":\"deterministic\",\"sid\":\"submit.sh $(date +%s) $$\"" | "$program" - submit --port "${url##*:}" --tries 10
}

if [ -n "$program" ]; then
    job=$(submit_once copied) || exit 1
else
    job=$(submit copied "") || exit 1
fi
echo "submitted $job"
state=SUBMITTED
while [ "$state" = SUBMITTED ] || [ "$state" = ACTIVE ]; do
    sleep 0.2
    answer=$(ask "$url/jobs/$job") || exit 1
    state=$(echo "$answer" | field job_state)
done
echo "it is $state"
ask "$url/jobs/$job/files" || exit 1

other=$(submit never "") || exit 1
echo "submitted $other"
ask -X DELETE "$url/jobs/$other" || exit 1
