#!/bin/sh
# Judges a folder of policies before it is deployed: its filters, FOLDER/*.filter, and its test files, FOLDER/*.test.
#
# usage: policy.sh SIZE BEFORE FOLDER
#
# SIZE is the number of nodes of the routing domain. BEFORE is the folder as it is deployed. Where the filters do something else than
# those there, that is shown, and is no mistake. The exit status is 1 if something is wrong; 2 if these words are; 3 if something is
# undecided or was not read, and nothing is wrong; and otherwise 0.
set -u
if [ $# -ne 3 ]; then
  echo "usage: policy.sh SIZE BEFORE FOLDER" >&2
  exit 2
fi
size=$1 before=$2 folder=$3
is_wrong=no is_unknown=no

# Notes the exit status of a command.
note() {
  case $1 in
    0) ;;
    1) is_wrong=yes ;;
    *) is_unknown=yes ;;
  esac
}

# What the change does: nothing is said of a filter that does the same.
compare() {
  if [ ! -e "$before/$1" ]; then
    echo "$1 is new"
    return
  fi
  said=$(ncroute diff --size "$size" "$before/$1" "$folder/$1")
  status=$?
  if [ $status -ne 0 ]; then
    echo "$1:"
    echo "$said"
  fi
  # Filters that differ are what a change is for.
  [ $status -eq 1 ] || note $status
}

ncroute lint --size "$size" "$folder"/*.filter
note $?
ncroute test "$folder"/*.test
note $?
for filter in "$folder"/*.filter; do
  compare "${filter##*/}"
done
for filter in "$before"/*.filter; do
  [ -e "$folder/${filter##*/}" ] || echo "${filter##*/} is gone"
done

if [ $is_wrong = yes ]; then
  exit 1
fi
if [ $is_unknown = yes ]; then
  exit 3
fi
exit 0
