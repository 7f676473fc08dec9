# One record gets one more field.
sed -i "1s/\$/, extra int/" records.txt
