# Links, pipes and hard links: nothing beyond out/ and .pie/ is changed, and nothing hangs.

test_a_link_up_below_out_is_removed_and_not_followed() {
  mkdir out
  ln -s .. out/up
  pie fresh
  ended 0
  printed accepted
  holds src/a source
  regular pie.pipeline
  left out/page
}

test_a_link_to_a_directory_elsewhere_is_not_written_through() {
  mkdir ../elsewhere out
  echo other >../elsewhere/x
  ln -s ../../elsewhere out/d
  pipeline 'func main() -> unit { write(path("out/d/x"), "new"); }'
  pie fresh
  ended 0
  holds ../elsewhere/x other
  holds out/d/x new
  [ ! -L out/d ] || wrong "out/d is still a link"
  left out/d/x
}

test_a_link_to_a_file_is_not_written_through() {
  mkdir out
  echo other >../other
  ln -s ../../other out/page
  pie fresh
  ended 0
  holds ../other other
  holds out/page source
}

test_a_link_to_nothing_is_replaced() {
  mkdir out
  ln -s ../../nowhere out/page
  pie fresh
  ended 0
  absent ../nowhere
  holds out/page source
}

test_a_hard_link_from_a_source_is_not_written_through() {
  mkdir out
  ln src/a out/page
  pipeline 'func main() -> unit { write(path("out/page"), get(read(path("src/a"))) + "more"); }'
  pie fresh
  ended 0
  holds src/a source
}

test_a_pipe_in_the_place_of_an_output_is_replaced() {
  mkdir out
  mkfifo out/page out/stray
  pie fresh
  ended 0
  holds out/page source
  left out/page
}

test_a_pipe_among_the_builders_own_files_does_not_hang() {
  mkdir .pie
  mkfifo .pie/open .pie/store .pie/pending
  pie fresh
  ended 0
  regular .pie/store
  absent .pie/open
}

test_a_file_without_write_permission_is_replaced() {
  mkdir out
  echo old >out/page
  chmod 444 out/page
  pie fresh
  ended 0
  holds out/page source
}

test_links_among_the_builders_own_files_are_not_followed() {
  mkdir .pie
  for name in open store pending; do
    echo "$name" >"../$name"
    ln -s "../../$name" ".pie/$name"
  done
  pie fresh
  ended 0
  for name in open store pending; do holds "../$name" "$name"; done
  regular .pie/store
}

test_a_link_at_the_builders_own_directory_is_not_followed() {
  mkdir ../elsewhere
  ln -s ../elsewhere .pie
  pie fresh
  [ -z "$(ls -A ../elsewhere)" ] || wrong "something was made behind .pie"
  holds src/a source
}

test_a_link_at_out_is_not_followed() {
  mkdir ../elsewhere
  echo other >../elsewhere/other
  ln -s ../elsewhere out
  pie fresh
  holds ../elsewhere/other other
  [ "$(ls -A ../elsewhere)" = other ] || wrong "something was made behind out"
  holds src/a source
}

test_a_source_behind_a_link_is_read() {
  echo linked >../linked
  ln -sf ../../linked src/a
  pie fresh
  ended 0
  holds out/page linked
}

test_a_loop_of_links_among_sources_ends() {
  ln -s . src/loop
  ln -s loop src/again
  mkdir src/sub
  for n in 1 2 3 4 5 6 7 8; do ln -s .. "src/sub/l$n"; done
  pipeline 'func main() -> unit { write(path("out/page"), join_text([name(p) for p in list(path("src"))], ",")); }'
  pie fresh
  [ "$status" != 124 ] && [ "$status" != 137 ] || wrong "it didn't end"
  ended 0
}
