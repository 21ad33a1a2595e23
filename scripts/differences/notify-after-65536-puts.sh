#!/bin/sh
# SPDX-License-Identifier: Apache-2.0 AND BSD-3-Clause
# Exactly 65,536 puts between two questions: what was counted as added is 0 again, and the answer is no although used_event (0) was
# passed; with one put less it is yes. Prints the script, or with the word `answers` what is answered to it.
puts() { awk -v n="$1" -v line="$2" 'BEGIN { for (i = 0; i < n; i++) print line }'; }
if [ "${1-}" = answers ]; then
    printf 'memory: 64\nqueue: ok\navail: ok\nused: ok\nevent: ok\n'
    puts 65535 'put: ok'
    printf 'question: yes\n'
    puts 65536 'put: ok'
    printf 'question: no\n'
else
    printf 'memory 64\nqueue 1\navail 16 0\nused 32 0\nevent 1\n'
    puts 65535 'put 0 0'
    printf 'question\n'
    puts 65536 'put 0 0'
    printf 'question\n'
fi
