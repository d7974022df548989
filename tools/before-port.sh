#!/usr/bin/env bash
# Run once before port.py, at the top of a repository of the older kit: the one bound name that port.py takes for a name of today's library,
# whereupon it leaves out its steps for the older spellings.
set -euo pipefail
sed -i 's/so_far/sofar/g' crates/bench/proofs/collections/weighted_sum/Proof.antt
