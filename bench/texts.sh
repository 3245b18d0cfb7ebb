# Sourced behind common.sh by what times a command of `lucy` on long texts: set `command` first. Each figure is the least of five
# runs, less the least of a run on the shortest program. It prints the megabytes (10^6 bytes) of text read in a second.
want_lucy
printf 'let node f x = x' >"$place/short"
short=$(least 5 "$lucy" "$command" "$place/short")

# Times what stands in $place/text.
measure() {
  local time
  time=$(least 5 "$lucy" "$command" "$place/text")
  awk -v what="$1" -v bytes="$(wc -c <"$place/text")" -v time="$((time - short))" -v printed="$(wc -c <"$place/printed")" 'BEGIN {
    printf "%s: %d bytes, %d printed, %d us, %.1f MB/s\n", what, bytes, printed, time, bytes / (time > 0 ? time : 1) }'
}
