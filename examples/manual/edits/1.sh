echo 'New words.' >>docs/TASKS.md
