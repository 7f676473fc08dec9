# A page's text changes, and not its title: the index stays.
printf "About\nWho wrote this, and when.\n" >pages/about.txt
