# A page is added: the index lists it.
printf "News\nNone yet.\n" >pages/news.txt
