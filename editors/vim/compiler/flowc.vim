" :compiler flowc, then :make HIER SRC, fills the quickfix list with the line of a refusal.
if exists("current_compiler")
    finish
endif
let current_compiler = "flowc"
CompilerSet makeprg=flowc\ check
CompilerSet errorformat=%f:%l:%c:\ %n\ %m,%-G%.%#
