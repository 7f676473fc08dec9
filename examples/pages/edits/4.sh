# The footer that all pages share changes.
printf "<hr>another footer\n" >inc/footer.html
