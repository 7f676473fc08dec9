# It is mended.
sed -i "s/a thing/a text/" records.txt
