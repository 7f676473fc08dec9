rm docs/FIRST.md
