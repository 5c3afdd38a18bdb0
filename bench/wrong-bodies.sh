#!/bin/sh
# bench/wrong-bodies.sh [--jobs N] [CRATE..]: the prover has to refuse every wrong body of these crates, or of all. wrong_bodies.py says how.
exec python3 "$(dirname "$0")/wrong_bodies.py" "$@"
