# Which allocations of a run are refused, for scripts of bash: each of the first 50, then each seventh. Where these begin is the seed's to say, or else
# the day's, so that each is refused within seven days. With --all each is.
each=50 stride=7 seed=$(($(date +%s) / 86400))

# next_allocation NUMBER: the number of the allocation that is refused after that one
next_allocation() {
  if [ "$1" -lt "$each" ]; then
    echo $(($1 + 1))
  elif [ "$1" = "$each" ]; then
    echo $((each + 1 + seed % stride))
  else
    echo $(($1 + stride))
  fi
}
