# The footer goes: the build is refused, and the names are kept.
mv inc/footer.html ..
