# A case is added: it alone runs, and the summary.
echo Plain >cases/plain
echo Plain >wanted/plain
