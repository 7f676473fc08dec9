# It is back: nothing needs to be named but what changed since.
mv ../footer.html inc
