#!/usr/bin/env bash
# The C programs over the static library, which must be built: the example, the floating-point modes, stack and threads.
# Each is held to what it should print or do; the first difference ends it. clang and C++ only where they are installed.
set -euo pipefail
cd "$(dirname "$0")/../../.."

library=crates/c_interface/out/libc_interface.a
folder=target/c
mkdir -p "$folder"
fail() { echo "the C programs fail: $*" >&2; exit 1; }

# built PROGRAM "COMPILER AND OPTIONS": the program from its source, with every warning an error.
built() {
  $2 -pedantic -Wall -Wextra -Werror -c "docs/src/c/$1.c" -o "$folder/$1.o"
  ${2/ -x c++/} "$folder/$1.o" "$library" -lm -pthread -Wl,-z,lazy -o "$folder/$1"
}

built job_q "cc -std=c99 -O2"
"$folder/job_q" | diff docs/src/c/job_q.stdout - || fail "job_q printed something else"

# Linked with -ffast-math subnormal numbers count as zero, which the example must tell before any call.
compilers=("cc -std=c99")
! command -v clang >/dev/null || compilers+=("clang -std=c99")
told="job_q: floating-point arithmetic is not in the default mode, which the calls need"
for compiler in "${compilers[@]}"; do
  built job_q "$compiler -O2 -ffast-math"
  ! said=$("$folder/job_q" 2>&1) || fail "job_q linked with -ffast-math by $compiler ends with status 0"
  [ "$said" = "$told" ] || fail "job_q linked with -ffast-math by $compiler says: $said"
done

# The header's test in each mode, whichever way it is compiled.
! command -v g++ >/dev/null || compilers+=("g++ -x c++ -std=c++11")
! command -v clang++ >/dev/null || compilers+=("clang++ -x c++ -std=c++11")
for compiler in "${compilers[@]}"; do
  for options in -O0 -O2 "-O3 -ffast-math"; do
    built float_modes "$compiler $options"
    "$folder/float_modes" jobs/set-main.job | diff docs/src/c/float_modes.stdout - \
      || fail "float_modes by $compiler $options printed something else"
  done
done

# Static data that is written would be shared by threads: the library has none.
size --common "$library" | awk 'NR > 1 && ($2 != 0 || $3 != 0) { found = 1 } END { exit found || NR < 2 }' \
  || fail "the library has data that can be written"
built stack_and_threads "cc -std=c99 -O2"
"$folder/stack_and_threads" jobs/*.job || fail "more stack than the header says, or threads that disturb each other"
echo "the C program printed what it should; each floating-point mode is told, compiled in ${#compilers[@]} ways with" \
  "three options each; no call takes more stack than the header says, and two threads leave what one leaves"
