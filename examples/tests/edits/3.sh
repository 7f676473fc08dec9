# The function under test changes: every answer is computed again, and no case runs whose answer is as before.
sed -i "s/trim(title)/trim(title + \"\")/" pie.pipeline
