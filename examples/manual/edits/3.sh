printf '# Words\n\nSee docs/FIRST.md.\n' >docs/WORDS.md
