# Directories in the place of files, and files in the place of directories.

test_an_empty_directory_gives_way_to_a_file() {
  mkdir -p out/page
  pie fresh
  ended 0
  holds out/page source
}

test_a_tree_of_directories_gives_way_to_a_file() {
  mkdir -p out/page/a/b out/page/c
  pie fresh
  ended 0
  holds out/page source
}

test_a_directory_of_files_gives_way_to_a_file() {
  mkdir -p out/page/a
  echo x >out/page/a/x
  echo y >out/page/y
  pie fresh
  ended 0
  printed 'removed out/page/a/x'
  printed 'removed out/page/y'
  holds out/page source
}

test_a_directory_of_names_that_are_no_paths_gives_way_to_a_file() {
  mkdir -p out/page
  echo x >"$(printf 'out/page/a\tb')"
  echo y >"$(printf 'out/page/\377')"
  pie fresh
  ended 0
  holds out/page source
}

test_a_file_gives_way_to_a_directory() {
  pipeline 'func main() -> unit { write(path("out/page/in/x"), "new"); }'
  mkdir out
  echo old >out/page
  pie fresh
  ended 0
  holds out/page/in/x new
}

test_a_removal_takes_away_directories_that_become_empty() {
  mkdir -p out/a/b/c
  echo x >out/a/b/c/x
  pie fresh
  ended 0
  absent out/a
}
