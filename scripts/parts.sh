# What several scripts share: texts that are made, and how long a call takes. It is sourced.

# At most 4 MiB of lines, over and over.
filled() { yes -- "$1" 2>/dev/null | head -n $((4194304 / (${#1} + 1))); }

# Macros A0, with these tokens, and A1 up to the last, each so many times the one before; and the last. An `@` is a name of
# 1,000,000 bytes.
grown() {
  awk -v first="$1" -v times="$2" -v last="$3" 'BEGIN {
    long = "L"
    while (length(long) < 1000000) long = long long
    long = substr(long, 1, 1000000)
    n = split(first, parts, "@")
    tokens = parts[1]
    for (k = 2; k <= n; k++) tokens = tokens long parts[k]
    print "#define A0 " tokens
    for (k = 1; k <= last; k++) { printf "#define A%d", k; for (t = 0; t < times; t++) printf " A%d", k - 1; print "" }
    print "A" last }'
}

# The nanoseconds that a call takes, whatever it answers.
nanoseconds_of() {
  local begun
  begun=$(date +%s%N)
  "$@" >/dev/null 2>&1 || true
  echo $(($(date +%s%N) - begun))
}

# The same in seconds.
seconds_of() { nanoseconds_of "$@" | awk '{ printf "%.3f\n", $1 / 1e9 }'; }
