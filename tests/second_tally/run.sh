#!/bin/sh
# The fixed cases, then the comparison, each built first.
#   sh run.sh                       the definitions alone
#   sh run.sh SUBJECT [OPTION..]    with a subject, a library or mirror.cpp; the options are compare's
# A difference is kept in the current directory. CXX is another compiler than g++, RUN what its programs are run by.
set -eu
here=$(cd "$(dirname "$0")" && pwd)
place=$(mktemp -d)
trap 'rm -rf "$place"' EXIT
build="${CXX:-g++} -std=c++17 -O2 -Wall -Wextra"
# whatever fails to build in the background is missed by the step after it
for part in ../second/file_check tally table log accepted generate; do
  $build -c "$here/$part.cpp" -o "$place/$(basename $part).o" &
done
wait
subject=-DWITHOUT_SUBJECT
if [ $# -gt 0 ]; then
  subject=$1
  shift
fi
for program in cases compare; do
  $build "$here/$program.cpp" "$here/sides.cpp" "$place"/*.o "$subject" -o "$place/$program" &
done
wait
${RUN:-} "$place/cases"
${RUN:-} "$place/compare" "$@"
