" Scripts of ravenhost.
autocmd BufNewFile,BufRead *.raven setfiletype raven
