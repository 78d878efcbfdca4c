# What the benchmarks make of the times that they took, in microseconds. They source this file.

# Sets `sorted` to the numbers in ascending order.
sort_numbers() {
  local number place
  sorted=()
  for number; do
    place=${#sorted[@]}
    while ((place > 0 && sorted[place - 1] > number)); do
      sorted[place]=${sorted[place - 1]}
      place=$((place - 1))
    done
    sorted[place]=$number
  done
}

# Sets `best` and `median` of the numbers; the median of an even number of them is the mean of the middle two.
summarise() {
  sort_numbers "$@"
  best=${sorted[0]}
  median=$(((sorted[($# - 1) / 2] + sorted[$# / 2]) / 2))
}

# Prints a line of the table: a name, and microseconds as seconds.
line() {
  printf '%-6s %4d.%06d %4d.%06d\n' "$1" \
    $(($2 / 1000000)) $(($2 % 1000000)) $(($3 / 1000000)) $(($3 % 1000000))
}
