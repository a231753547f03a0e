" Syntax of flowc sources. Copy editors/vim/* to ~/.vim, or add the folder to 'runtimepath'.
if exists("b:current_syntax")
    finish
endif

syntax keyword flowItem input output global exception throws
syntax keyword flowType int boolean void
syntax keyword flowBranch if else while break continue return
syntax keyword flowException try catch throw
syntax keyword flowChannel send receive
syntax keyword flowTruth true false
syntax keyword flowBuiltIn Arith Bounds End
syntax match flowNumber /\<\d\+\>/
" A label stands directly behind a type, a name or a closing parenthesis: {Alice: Bob; x}
syntax match flowLabel /{\s*\(\k\+\s*\(:\s*\(\k\+\s*\(,\s*\k\+\s*\)*\)\?\)\?\(;\s*\k\+\s*\(:\s*\(\k\+\s*\(,\s*\k\+\s*\)*\)\?\)\?\)*\)\?}/
syntax region flowComment start="/\*" end="\*/"
syntax match flowComment "//.*$"

highlight default link flowItem Structure
highlight default link flowType Type
highlight default link flowBranch Statement
highlight default link flowException Exception
highlight default link flowChannel Keyword
highlight default link flowTruth Boolean
highlight default link flowBuiltIn Constant
highlight default link flowNumber Number
highlight default link flowLabel Special
highlight default link flowComment Comment

let b:current_syntax = "flow"
