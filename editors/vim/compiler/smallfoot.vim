" The first line of what `show explain` says is FILE:LINE:COLUMN: and what is wrong there.
if exists("current_compiler")
  finish
endif
let current_compiler = "smallfoot"
CompilerSet makeprg=show\ explain\ %:S
CompilerSet errorformat=%f:%l:%c:\ %m,%-G%.%#
