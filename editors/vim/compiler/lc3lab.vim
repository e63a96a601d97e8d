" `:compiler lc3lab` and then `:make`: the messages about the source, as errors and warnings to jump to.

if exists("current_compiler")
  finish
endif
let current_compiler = "lc3lab"

CompilerSet makeprg=lc3lab\ check\ %:S
CompilerSet errorformat=%f:%l:%c:\ %trror:\ %m,%f:%l:%c:\ %tarning:\ %m,%-G%.%#
