# Two builds at once, full disks, big files, words that are no text, and faults with a name.

test_a_second_build_changes_nothing() {
  command -v flock >/dev/null || skip "there is no flock"
  flock . "$program" fresh </dev/null >../printed 2>../told
  status=$?
  ended 5
  printed 'files fault'
  absent out
  absent .pie
  [ ! -s ../told ] || wrong "something was written to standard error"
  PIE_EXPLAIN=1 flock . "$program" fresh </dev/null >../printed 2>../told
  grep -qx 'pie: another build is at work here' ../told || wrong "the fault isn't named: $(cat ../told)"
  flock . "$program" check </dev/null >../printed
  printed 'ok 1 functions, 1 roots'
}

test_builds_side_by_side_leave_what_one_leaves() {
  local round report
  local number
  for number in $(seq 1 50); do echo "$number" >"src/f$number"; done
  pipeline 'func part(p: path) -> path { val to = join(path("out/d"), name(p)); write(to, get(read(p))); to }
func main() -> int { len([require part(p) for p in list(path("src"))]) }'
  for round in $(seq 1 30); do
    rm -rf out .pie
    "$program" fresh </dev/null >../one 2>/dev/null &
    "$program" fresh </dev/null >../two 2>/dev/null
    wait
    grep -qx accepted ../one ../two || wrong "neither build was accepted in round $round"
    for report in ../one ../two; do
      grep -qx accepted "$report" || [ "$(cat "$report")" = 'files fault' ] || wrong "a build ended otherwise: $(head -n 1 "$report")"
    done
    [ "$(ls out/d | wc -l)" = 51 ] || wrong "out/d holds $(ls out/d | wc -l) files"
    [ "$(ls -A .pie)" = store ] || wrong ".pie holds: $(ls -A .pie | tr '\n' ' ')"
  done
}

test_a_full_disk_is_a_fault_and_the_next_build_goes_through() {
  mkdir small
  mount -t tmpfs -o size=256k tmpfs small 2>/dev/null || skip "mounting isn't allowed"
  cp -R src pie.pipeline pie.roots small
  cd small || exit 1
  mkdir ../printed.d
  head -c 400000 /dev/zero | tr '\0' x >../big
  pipeline 'func main() -> unit { write(path("out/page"), join_text([get(read(path("src/a"))) for n in range(0, 60000)], "")); }'
  "$program" fresh </dev/null >../printed 2>../told
  status=$?
  local full=$status
  pipeline 'func main() -> unit { write(path("out/page"), get(read(path("src/a")))); }'
  "$program" fresh </dev/null >../printed 2>../told
  status=$?
  local next
  next=$(cat out/page 2>/dev/null)
  cd ..
  umount small
  [ "$full" = 5 ] || wrong "a full disk ended with status $full"
  ended 0
  [ "$next" = source ] || wrong "the build after it left: $next"
}

test_a_big_source_is_looked_at_without_memory_for_it() {
  truncate -s 3G src/big 2>/dev/null || skip "no file of 3 GiB can be made"
  pipeline 'func main() -> unit { write(path("out/page"), if exists(path("src/big")) { "there" } else { "not" }); }'
  (ulimit -v 400000 && timeout 20 "$program" fresh </dev/null >../printed 2>../told)
  status=$?
  ended 0
  holds out/page there
  pipeline 'func main() -> unit { write(path("out/page"), get(read(path("src/big") by mark))); }'
  (ulimit -v 400000 && timeout 20 "$program" fresh </dev/null >../printed 2>../told)
  status=$?
  ended 1
  printed 'refused fault main(): Big'
  # by hash it is hashed, as a look at its digest hashes it
  pipeline 'func main() -> unit { write(path("out/page"), get(read(path("src/big")))); }'
  (ulimit -v 400000 && timeout 300 "$program" fresh </dev/null >../printed 2>../told)
  status=$?
  ended 1
  printed 'refused fault main(): Big'
  pipeline 'func main() -> unit { write(path("out/page"), get(digest(path("src/big")))); }'
  (ulimit -v 400000 && timeout 300 "$program" fresh </dev/null >../printed 2>../told)
  status=$?
  ended 0
  holds out/page "$(sha256sum src/big | cut -d' ' -f1)"
}

test_a_big_pipeline_is_too_long_by_its_size() {
  truncate -s 3G pie.pipeline 2>/dev/null || skip "no file of 3 GiB can be made"
  (ulimit -v 400000 && timeout 20 "$program" fresh </dev/null >../printed 2>../told)
  status=$?
  ended 4
  printed 'bad pipeline: too long'
}

test_words_that_are_no_text_are_no_command() {
  pie "$(printf '\377')"
  ended 2
  grep -q '^usage: ' ../printed || wrong "the usage line wasn't printed"
}

test_a_fault_is_named_where_the_environment_asks() {
  echo file >out
  pie fresh
  ended 5
  printed 'files fault'
  [ ! -s ../told ] || wrong "something was written to standard error: $(cat ../told)"
  PIE_EXPLAIN=1 "$program" fresh </dev/null >../printed 2>../told
  [ "$(wc -l <../told)" = 1 ] && grep -q '^pie: [a-z]* out.*: ' ../told || wrong "the fault isn't named: $(cat ../told)"
}

test_an_output_fault_is_named_where_the_environment_asks() {
  [ -w /dev/full ] || skip "there is no /dev/full"
  PIE_EXPLAIN=1 "$program" fresh </dev/null >/dev/full 2>../told
  status=$?
  ended 7
  grep -q '^pie: .*: ' ../told || wrong "the fault isn't named: $(cat ../told)"
}

test_what_the_builder_makes_is_its_owners_whatever_the_mask() {
  (umask 0777 && "$program" fresh </dev/null >../printed)
  status=$?
  ended 0
  local found
  found=$(find .pie out ! -perm -u+rw)
  [ -z "$found" ] || wrong "not readable and writable by their owner: $found"
  pie fresh
  ended 0
}
