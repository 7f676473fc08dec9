# The report: the refusal, and the 50,000 tasks that ran.
echo 'refused many'
seq -f 'ran f(%.0f)' 0 49999
