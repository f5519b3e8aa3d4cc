#!/usr/bin/env bash
# Requests at random to the program, each reply line for line as bench/asking_model.py has it by the rules alone: a load of 5,000 rows with
# 3,000 alternate names, a day of about 1,500 changes, and 1,000 searches, chains, lists of children, places and admin codes. The next run answers the
# same. Its mirror is read by tests/lib/mirror.py. QUESTIONS_SEED names the first of two seeds; else it is another one each time.
set -u
. "$(dirname "$0")/lib/expect.bash"
cd "$folder" || exit 1
first=${QUESTIONS_SEED:-$((RANDOM + 1))}
for seed in "$first" "$((first + 1))"; do
    mkdir "$seed" && cd "$seed" || exit 1
    python3 "$top/tests/lib/asked.py" . "$seed" 1000 || exit 1
    "$program" serve < requests > got
    check "seed $seed" "$? $(cmp got wanted && echo same)" '0 same'
    tail -n +3 wanted > wanted_again
    check "seed $seed again" "$(tail -n +3 requests | "$program" serve | cmp - wanted_again && echo same)" same
    check "seed $seed, the mirror" "$(python3 "$top/tests/lib/mirror.py" read . 2>&1 | head -n 1 | cut -d , -f 2)" ' 2024-03-02'
    echo "seed $seed: $(wc -l < wanted) lines"
    cd ..
done
finish
