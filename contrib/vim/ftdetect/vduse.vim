" Scripts of vduse run.
autocmd BufNewFile,BufRead *.script if getline(1) =~# '^\(#\|version\|create\|dev\|image\|setversion\)' | setfiletype vduse | endif
