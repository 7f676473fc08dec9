# Somebody wrote to a file that a task provides: it is made anew.
printf "spoilt" >out/about.html
