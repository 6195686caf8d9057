# Functions of the scripts in this directory, which read this file. Time is processor time: other work on the machine disturbs it less
# than the clock.

second=target/tests/member

# best INPUT OUTPUT PROGRAM [ARGUMENT..]: sets `best` to the least time of `turns` runs, in milliseconds; no run is begun after `enough`
# milliseconds in all. Fails if the program does.
best() {
  local input=$1 output=$2 turn user system taken all=0 TIMEFORMAT='%3U %3S'
  shift 2
  best=
  for ((turn = 0; turn < ${turns:-5} && all < ${enough:-1000000}; turn++)); do
    read -r user system < <({ time "$@" < "$input" > "$output" 2>&3; } 3>&2 2>&1)
    wait $! || { echo "$1 ended with $?"; return 1; }
    taken=$((10#${user/[.,]/} + 10#${system/[.,]/}))
    if [ -z "$best" ] || [ "$taken" -lt "$best" ]; then best=$taken; fi
    all=$((all + taken))
  done
}

# ratio A B: A / B with two digits after the point, rounded, and - where there is no B.
ratio() {
  if [ -z "$2" ]; then echo -; return; fi
  local by=$(($2 > 0 ? $2 : 1))
  local hundredths=$((($1 * 100 + by / 2) / by))
  printf '%d.%02d' $((hundredths / 100)) $((hundredths % 100))
}

# tenths MICROSECONDS: as milliseconds with one digit after the point, and - where there are none.
tenths() {
  if [ -z "$1" ]; then echo -; else printf '%d.%d' $((($1 + 50) / 1000)) $((($1 + 50) / 100 % 10)); fi
}

# thousands NUMBER: the number with a comma before each three digits.
thousands() {
  local digits=$1
  while [[ $digits =~ ^([0-9]+)([0-9]{3}.*)$ ]]; do digits=${BASH_REMATCH[1]},${BASH_REMATCH[2]}; done
  echo "$digits"
}

# trial INPUT PROGRAM: sets `best` to the program's time on INPUT.in. Fails unless it prints INPUT.out, octet for octet.
trial() {
  best "$1.in" "$1.printed" "$2" || return 1
  cmp "$1.out" "$1.printed" || { echo "${1##*/}: $2 does not print what it must"; return 1; }
}

# heading: the heading of the rows that `members` prints.
heading() {
  printf '%-12s %9s %9s %9s %10s %10s %9s %9s %9s %9s\n' run second before product to-second to-before lines/s 'kB second' before product
}

# members INPUT: a row with the milliseconds on INPUT.in of the second member, of the member program of another build, where BEFORE names
# its directory, and of the member program; the ratios, the lines in a second, and the peak memory of each. The other build may have other
# limits: where it answers otherwise, its time is left out. Sets `hundredths` to the ratio to the second member.
members() {
  local product second_took before_took='' before_memory=- lines
  product=$(tests/product member) || return 1
  lines=$(wc -l < "$1.out")
  trial "$1" "$second" || return 1
  second_took=$best
  if [ -n "${BEFORE:-}" ]; then
    if trial "$1" "$BEFORE/member" > "$1.said"; then
      before_took=$best
      before_memory=$(thousands "$(target/tests/peak "$BEFORE/member" "$1.in")")
    else
      echo "  no time of $BEFORE/member, which does not answer this run as it must"
    fi
    rm -f "$1.said"
  fi
  trial "$1" "$product" || return 1
  hundredths=$(((best * 100 + second_took / 2) / (second_took > 0 ? second_took : 1)))
  printf '%-12s %9s %9s %9s %10s %10s %9s %9s %9s %9s\n' "${1##*/}" "$(thousands "$second_took")" "$(thousands "${before_took:--}")" \
    "$(thousands "$best")" "$(ratio "$best" "$second_took")" "$(ratio "$best" "$before_took")" \
    "$(thousands $((lines * 1000 / (best > 0 ? best : 1))))" "$(thousands "$(target/tests/peak "$second" "$1.in")")" "$before_memory" \
    "$(thousands "$(target/tests/peak "$product" "$1.in")")"
}

# find_openssl: sets `openssl` to the program over OpenSSL's library (openssl.c), and to nothing where it cannot be made.
find_openssl() {
  openssl=target/tests/openssl
  if ! "${CC:-cc}" -O2 -o "$openssl" tests/speed/openssl.c -lcrypto 2> "$openssl.log"; then
    echo 'skipped OpenSSL: its headers, or a C compiler, are not there'
    openssl=
  fi
}

# by_openssl ARGUMENT..: sets `took` to the least microseconds of a run and `sum` to its checksum. They are what the program tells of its
# loop, so that loading the library is not counted.
by_openssl() {
  local turn time
  took=
  for ((turn = 0; turn < ${turns:-5}; turn++)); do
    read -r sum time < <("$openssl" "$@")
    if [ -z "$took" ] || [ "$time" -lt "$took" ]; then took=$time; fi
  done
}
