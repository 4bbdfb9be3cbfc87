#!/usr/bin/env bash
# Prints the input of listings.c: a text with settings and key, and then the nine listings that the program `prove` prints for a message of depth 2, one for
# each path of a tree, in the order of its leaves. The first argument names the program.
set -eu
prove=${1:-"$(dirname "$0")/../../target/bin/prove"}

settings='part item place value
0 0 0 2
0 0 1 2
0 0 2 12289
0 0 3 1
0 0 4 1'
key='1 0 0 8121
1 0 1 377
1 1 0 5024
1 1 1 11903
1 2 0 1066
1 2 1 9999
1 3 0 42
1 3 1 7310'
message='2 0 0 1
2 0 1 -1
2 1 0 0
2 1 1 1
2 2 0 -1
2 2 1 0
2 3 0 1
2 3 1 1'

printf '%s\n' "$settings" "$key"
# three different challenges in round 1, and behind each of them three others in round 2
for path in '0 1' '0 2' '0 0' '1 2' '1 3' '1 1' '3 3' '3 0' '3 2'; do
  printf '%s\n' "$settings" "$key" "$message" "5 0 0 ${path% *}" "5 1 0 ${path#* }" | "$prove"
done
