# A hidden file and a picture among the pages aren't pages.
printf '\377' >pages/.DS_Store
printf '\211PNG\377' >pages/photo.png
