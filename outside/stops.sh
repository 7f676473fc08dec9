# A build that is killed at any of its calls on the system: the next one goes through, and leaves what it would have left.

# Two states of a project between which files become directories and directories files.
first_state() {
  pipeline 'func main() -> unit { write(path("out/a"), "a"); write(path("out/b/c/d"), "d"); write(path("out/e"), get(read(path("src/a")))); }'
}
second_state() {
  pipeline 'func main() -> unit { write(path("out/a/x/y"), "y"); write(path("out/b"), "b"); write(path("out/e"), "e"); }'
}

# Runs a command that may be killed, in a shell of its own, which says nothing about it.
quietly() { bash -c '"$@"; exit "$?"' - "$@" </dev/null >../killed 2>&1; }

# Kills a build of the second state at the N-th call on the system of one name.
killed_at() {
  quietly strace -f -o /dev/null -e trace="$1" -e inject="$1:signal=KILL:when=$2" "$program" fresh
  [ "$?" = 137 ]
}

# Kills a build after so many seconds, and waits for its end: its lock goes with it.
killed_after() {
  quietly bash -c '"$0" fresh & sleep "$1"; kill -KILL "$!"; wait "$!"' "$program" "$1"
}

# The files, and that nothing else is left: neither a new file that was not renamed nor a marker.
second_left() {
  left out/a/x/y out/b out/e
  holds out/a/x/y y
  holds out/b b
  holds out/e e
  [ "$(ls -A .pie)" = store ] || wrong "after a stop at $1 call $2 .pie holds: $(ls -A .pie | tr '\n' ' ')"
}

test_a_kill_at_each_call_wedges_nothing() {
  command -v strace >/dev/null || skip "there is no strace"
  strace -o /dev/null true 2>/dev/null || skip "strace isn't allowed here"
  local call number
  for call in openat write fsync rename renameat renameat2 unlink unlinkat mkdir mkdirat rmdir chmod fchmod newfstatat statx close; do
    for number in $(seq 1 60); do
      rm -rf out .pie
      first_state
      pie fresh
      ended 0
      second_state
      killed_at "$call" "$number" || break
      pie fresh
      [ "$status" = 0 ] || wrong "the build after a kill at $call call $number ended with status $status"
      second_left "$call" "$number"
    done
  done
}

test_a_kill_after_any_time_wedges_nothing() {
  local number
  for number in $(seq 1 40); do
    first_state
    pie fresh
    ended 0
    second_state
    killed_after "0.00$((number % 10))$number"
    pie fresh
    ended 0
    second_left "a kill" "$number"
    rm -rf out .pie
  done
}
