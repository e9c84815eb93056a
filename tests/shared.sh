# What the test scripts share. A script sets `top`, the repository's folder, and reads this file.
#
# Tests write only into one folder, out/ or the one that the variable YOVANELUM_OUT names, so that the checkout may be read-only. `work` is
# a folder in it that is removed at the script's end: some tests leave links or sources there, with which `rt ci` refuses a checkout.
out=${YOVANELUM_OUT:-$top/out}
if ! { mkdir -p "$out" && out=$(cd "$out" && pwd) && work=$(mktemp -d "$out/work.XXXXXX"); }; then
  echo "the tests can't write into $out"
  exit 70
fi
trap 'rm -rf "$work"' EXIT
export YOVANELUM_OUT=$out TMPDIR=$work PYTHONDONTWRITEBYTECODE=1
# What cargo keeps to build an edited crate again takes half of a target folder, and debug info, which no test reads, two fifths of the time that
# compiling takes.
export CARGO_INCREMENTAL=0 CARGO_PROFILE_DEV_DEBUG=0
# What is optimised in several parts is optimised again once each has seen the others, which takes a quarter more of the processors.
export CARGO_PROFILE_RELEASE_CODEGEN_UNITS=1
# Many tests start programs that panic or abort. Each would take ten times as long with a backtrace, which nobody reads.
export RUST_BACKTRACE=0
# The program that is tested.
export YOVANELUM_TTD=${YOVANELUM_TTD:-$top/rust/built/x86_64-linux/ttd}
passed=0
failed=0
skipped=0

# Whether a part of the script is left out: the variable YOVANELUM_SKIP names those that are. The sum says how many were.
left_out() {
  [[ " ${YOVANELUM_SKIP:-} " == *" $1 "* ]] || return
  skipped=$((skipped + 1))
  echo "${0#"$top/"}: $1 is left out, as YOVANELUM_SKIP says" >&2
}

# Sets `spent` to the time, in hundredths of a second, that processors took for what this shell has started and that has ended.
read_spent() {
  local fields
  read -r -a fields </proc/$BASHPID/stat
  spent=$((fields[15] + fields[16]))
}

# Appends to the file that the variable YOVANELUM_TIMES names, if any, how many seconds of processors a command took since `spent` was read.
tell_spent() {
  local since=$spent
  [ -n "${YOVANELUM_TIMES-}" ] || return 0
  read_spent
  printf '%6d.%02d %s: %s\n' $(((spent - since) / 100)) $(((spent - since) % 100)) "${0#"$top/"}" "$*" >>"$YOVANELUM_TIMES"
}

# Adds the tests that passed, as cargo says of each program in this text.
add_passed() {
  local number
  while read -r number; do passed=$((passed + number)); done < <(sed -n 's/^test result: .* \([0-9]*\) passed; .*/\1/p' <<<"$1")
}

# Counts a failure, and prints what failed, and what that printed.
fail() {
  failed=$((failed + 1))
  printf '%s: %s\n' "${0#"$top/"}" "$1"
  [ $# -eq 1 ] || printf '%s\n' "${@:2}"
  tell_failure "$@"
}

# Appends what failed, and the last lines that it printed, to the file that the variable YOVANELUM_FAILURES names, if any.
tell_failure() {
  [ -n "${YOVANELUM_FAILURES-}" ] || return 0
  {
    printf '%s: %s\n' "${0#"$top/"}" "$1"
    [ $# -eq 1 ] || tail -n 30 <<<"$2"
  } >>"$YOVANELUM_FAILURES"
}

# Has the script print once more, before its sum, what failed in the scripts that it runs: they may have printed much since.
gather_failures() { export YOVANELUM_FAILURES=${YOVANELUM_FAILURES:-$work/failures}; }

# Counts a command that has no count of its own, and prints its output if it fails.
step() {
  local said spent
  read_spent
  if said=$("$@" 2>&1); then
    passed=$((passed + 1))
  else
    fail "failed: $*" "$said"
  fi
  tell_spent "$@"
}

# Runs a command whose last line is 'N passed, M failed', perhaps with ', K skipped', adds that, and prints how long it took.
count() {
  local since=$SECONDS said last spent failures
  read_spent
  failures=$(mktemp "$work/failures.XXXXXX") || exit 70
  said=$(YOVANELUM_FAILURES=$failures "$@" | tee >(cat >&2) | tail -n 30)
  last=${said##*$'\n'}
  if [[ $last =~ ^([0-9]+)\ passed,\ ([0-9]+)\ failed(,\ ([0-9]+)\ skipped)? ]]; then
    passed=$((passed + BASH_REMATCH[1]))
    failed=$((failed + BASH_REMATCH[2]))
    skipped=$((skipped + ${BASH_REMATCH[4]:-0}))
    # A script has told what failed in it.
    if [ -s "$failures" ]; then
      cat "$failures" >>"${YOVANELUM_FAILURES-/dev/null}"
    elif [ "${BASH_REMATCH[2]}" -gt 0 ]; then
      tell_failure "$*" "$said"
    fi
  else
    fail "$* gave no count; its last line: $last"
  fi
  printf '%s: %s: %s, %s s\n' "${0#"$top/"}" "$*" "$last" "$((SECONDS - since))" >&2
  tell_spent "$@"
}

# Calls a function for each line of standard input, as many side by side as there are processors, or as `lanes` says, and adds their counts. The
# output of each is printed when it ends.
each() {
  local number=0 counts line counted
  counts=$(mktemp -d) || exit 70
  while IFS= read -r line; do
    number=$((number + 1))
    while [ "$(jobs -rp | wc -l)" -ge "${lanes:-$(nproc)}" ]; do wait -n; done
    # Each counts for itself, and writes its counts into a file.
    # shellcheck disable=SC2030
    {
      passed=0 failed=0 skipped=0
      "$@" "$line" >"$counts/$number.said" </dev/null
      echo "$passed $failed $skipped" >"$counts/$number"
      cat "$counts/$number.said"
    } &
  done
  wait
  # shellcheck disable=SC2031 # These counts are read from the files.
  for ((; number > 0; number--)); do
    counted='0 1 0'
    [ ! -f "$counts/$number" ] || counted=$(<"$counts/$number")
    read -r -a counted <<<"$counted"
    passed=$((passed + counted[0]))
    failed=$((failed + counted[1]))
    skipped=$((skipped + counted[2]))
  done
  rm -rf "$counts"
}

# Ends the script if one of these commands is missing.
need() {
  local command
  for command in "$@"; do
    command -v "$command" >/dev/null || { fail "$command isn't there: install it"; finish; }
  done
}

# Installs Debian's packages. Parts of ./test run side by side, so one waits for the other, and for whoever else installs something.
install_packages() {
  local patient=(-o Acquire::Retries=5 -o DPkg::Lock::Timeout=600)
  (
    flock 9 && apt-get "${patient[@]}" update && DEBIAN_FRONTEND=noninteractive apt-get "${patient[@]}" install -y --no-install-recommends "$@"
  ) 9>"$out/packages.lock" </dev/null
}

# Waits until no other part installs packages: a command or a folder of theirs is there before all that it needs is.
wait_for_packages() { flock -s "$out/packages.lock" true; }

# Installs the packages of a command that is missing, if that is allowed. If not, `missing` has the message about it.
# shellcheck disable=SC2034 # Callers read it.
install_tool() {
  local command=$1
  shift
  wait_for_packages
  command -v "$command" >/dev/null && return
  echo "${0#"$top/"}: installing $*" >&2
  install_packages "$@" >/dev/null 2>&1
  command -v "$command" >/dev/null && return
  missing="$command isn't there, and can't be installed here: apt-get install $*"
  return 1
}

# Writes a program that cargo can call in rustc's place, which adds these words. Words in RUSTFLAGS, or a profile, would be for all that cargo compiles,
# and so the crate would be compiled once more for each.
make_wrapper() { printf '#!/bin/sh\nexec "$@" %s\n' "${*:2}" >"$1" && chmod +x "$1"; }

# Prints the names of the Rust crate's test programs: a file of rust/tests, or a folder with a main.rs.
test_programs() {
  local program
  for program in "$top"/rust/tests/*.rs "$top"/rust/tests/*/main.rs; do basename "${program%/main.rs}" .rs; done
}

# Makes the folder of the crates that Cargo.lock names, which cargo reads from then on: for the workspace, and for packages over it.
make_crates() {
  local file=$out/crates/home/config.toml
  "$top/rust/sources" "$out/crates" && mkdir -p "${file%/*}" && { cmp -s "$out/crates/config.toml" "$file" || cp "$out/crates/config.toml" "$file"; } &&
    export CARGO_HOME=${file%/*}
}

# The same, or ends the script.
use_crates() { make_crates || { fail "the crates of Cargo.lock can't be had"; finish; }; }

# Has cargo build the program, not optimised, where its package's tests have it too, and sets `built` to its path.
# shellcheck disable=SC2034 # Callers read it.
build_program() {
  built=$out/ttd/debug/ttd
  make_crates || fail "the program isn't built"
  CARGO_TARGET_DIR=$out/ttd step cargo build -q --locked --manifest-path "$top/rust/ttd/Cargo.toml"
}

# Has cargo install the program, as users do but for the number of parts in which it is optimised, and sets `installed` to its path.
# shellcheck disable=SC2034 # Callers read it.
install_program() {
  installed=$out/program/bin/ttd
  make_crates || fail "the program isn't installed"
  CARGO_TARGET_DIR=$out/source step cargo install -q --locked --path "$top/rust/ttd" --root "$out/program" --force
}

# Prints the sum, which is a script's last line, and ends with status 0 if nothing failed. What was left out isn't counted as passed.
finish() {
  local left=''
  [ ! -s "$work/failures" ] || { echo 'What failed:'; cat "$work/failures"; }
  [ "$skipped" -eq 0 ] || left=", $skipped skipped"
  echo "$passed passed, $failed failed$left"
  [ "$failed" -eq 0 ]
  exit
}
