# What a build changes lasts before its marker is taken away, and the marker before the first change, by its calls on the system.

# Tells what is wrong in a trace: a change before the marker lasts, a changed file or directory that isn't synced before the marker goes or at the end, and a
# directory above a change that isn't synced at all, though an earlier build may have been stopped before it was.
unsynced() {
  awk '
    function dir(p) { return p ~ /\// ? substr(p, 1, match(p, /\/[^\/]*$/) - 1) : "." }
    function changes(p,   d) {
      for (d in dirty) if (phase == 1) print p " changes before " d " lasts"
      if (phase == 1) phase = 2
      dirty[dir(p)] = 1
      for (d = dir(p); d != "."; d = dir(d)) needed[d] = 1
      needed["."] = 1
    }
    function settles(when,   d) { for (d in dirty) print d " is not synced " when }
    / = -1 / { next }
    { split($0, q, "\"") }
    / openat\(/ { opened[$NF] = q[2] }
    / mkdir(at)?\(/ { made[q[2]] = 1 }
    / fsync\(/ { fd = $0; sub(/.*fsync\(/, "", fd); sub(/\).*/, "", fd); delete dirty[opened[fd]]; synced[opened[fd]] = 1 }
    / rename(at|at2)?\(/ {
      changes(q[4])
      if (!(q[2] in made)) dirty[q[4]] = 1
      if (q[4] == ".pie/open") phase = 1
    }
    # (what a stop left under the name of a new file may come back)
    / (unlink(at)?|rmdir)\(/ && index(q[2], "177new") == 0 {
      if (q[2] == ".pie/open") {
        settles("before the marker goes")
        for (d in needed) if (!(d in synced)) print d " is never synced"
        phase = 0
      }
      changes(q[2])
      delete dirty[q[2]]
      delete needed[q[2]]
    }
    END { settles("at the end") }
  ' ../calls
}

# Builds, and looks at the calls.
traced() {
  strace -f -o ../calls -e trace=openat,fsync,rename,renameat,renameat2,unlink,unlinkat,rmdir,mkdir,mkdirat "$program" "$@" </dev/null >../printed 2>../told
  status=$?
  ended 0
  grep -q 'fsync(' ../calls || wrong "pie $* synced nothing"
  [ -z "$(unsynced)" ] || wrong "pie $*: $(unsynced | head -n 3 | tr '\n' ';')"
}

test_all_changes_last_before_the_marker_goes() {
  command -v strace >/dev/null || skip "there is no strace"
  strace -o /dev/null true 2>/dev/null || skip "strace isn't allowed here"
  first_state
  traced fresh
  second_state
  traced fresh
  first_state
  traced topdown
  second_state
  killed_at rename 3 || wrong "nothing was killed"
  traced fresh
}
