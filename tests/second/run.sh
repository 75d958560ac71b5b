#!/bin/sh
# Builds and runs everything: the fixed cases first, then the comparison.
#   sh run.sh                          the definitions alone
#   sh run.sh LIBRARY [OPTION..]       against the subject in LIBRARY; with no option both halves of 100,000 files at once
# A difference is saved in the current directory, or in `first` or `last`, a half's own. CXX names another compiler, RUN what runs its programs.
set -eu
here=$(cd "$(dirname "$0")" && pwd)
place=$(mktemp -d)
trap 'rm -rf "$place"' EXIT
build="${CXX:-g++} -std=c++17 -O2 -Wall -Wextra"
# all parts at once; one that fails is missed when they are linked
for part in file_check house rides worths plan sheet safe_plans walk generate; do
  $build -c "$here/$part.cpp" -o "$place/$part.o" &
done
wait
# the subject, if one is named, behind what calls it
if [ $# -gt 0 ]; then subject="$1 ${SUBJECT_FLAGS:-}"; else subject=-DWITHOUT_SUBJECT; fi
for program in cases compare; do
  $build "$here/$program.cpp" "$here/calls.cpp" "$place"/*.o $subject -o "$place/$program"
done
${RUN:-} "$place/cases"
if [ $# -eq 0 ]; then
  ${RUN:-} "$place/compare" --self --every 1
  exit
fi
shift
if [ $# -gt 0 ]; then
  ${RUN:-} "$place/compare" "$@"
  exit
fi
mkdir -p first last
(cd first && exec ${RUN:-} "$place/compare" --files 50000 --seed 1) &
first=$!
ended=0
(cd last && exec ${RUN:-} "$place/compare" --files 50000 --seed 50001) || ended=$?
wait "$first"
exit "$ended"
