# A page goes: so does its file.
rm pages/news.txt
