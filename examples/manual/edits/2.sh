sed -i '1s/.*/# All about tasks/' docs/TASKS.md
