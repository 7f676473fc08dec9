" A pipeline of PIE, and its roots.
autocmd BufNewFile,BufRead pie.pipeline,pie.roots setfiletype pie
