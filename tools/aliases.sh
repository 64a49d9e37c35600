#!/usr/bin/env bash
# Names that only an `as` or a binder gives, in snake case too. Run once, at the top, after tools/spell.py.
set -euo pipefail
cd "$(dirname "$0")/.."
grep -rlE --include='*.antt' --include='*.rt' --include='*.edit' '(promisedOutput|shuffleAnswer|sharedBy|legOf|tailOf|previousOf|fewE|fewS|kT)' crates | grep -v '/out/' | xargs sed -i -E \
    's/\bpromisedOutput\b/promised_output/g; s/\bshuffleAnswer\b/shuffle_answer/g; s/\bsharedBy\b/shared_by/g; s/\blegOf\b/leg_of/g; s/\btailOf\b/tail_of/g; s/\bpreviousOf\b/previous_of/g; s/\bfewE\b/few_e/g; s/\bfewS\b/few_s/g; s/\bkT\b/k_t/g'
