# A record of a kind that there is not: the build is refused.
echo "odd: a thing" >>records.txt
