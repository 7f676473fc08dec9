# The function of a page changes in layout alone: nothing runs.
sed -i "s|^func page|// One page.\nfunc page|" pie.pipeline
