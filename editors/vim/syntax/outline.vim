" Proof outlines. A test compares the words and marks below with those that the tool reads.
if exists('b:current_syntax')
  finish
endif

syntax keyword outlineDeclaration range word register registers open of let thread never proof certificate
syntax keyword outlineControl if goto
syntax keyword outlineOperator and or not sees holds one unsync cov
syntax match outlineAction /\<\(swap\|exchange\|fetch-add\)\>/
syntax keyword outlineConstant true false start
syntax keyword outlineSort value test interval assertion
syntax keyword outlineLink in to by at
syntax match outlineStep /\<\(step\|fact\|part\|through\|formula\|line\|rule\|obligations\|claims\|from\)\>/
syntax match outlineLabel /\<[A-Za-z_][A-Za-z0-9_']*\ze\s*:\(=\)\@!/
syntax match outlineNumber /\<[0-9]\+\>/
syntax match outlineMark /:=rel\>\|<-acq\>\|:=\|<-\|=>\|!=\|<=\|>=\|[=<>+;&|,:@?]/
syntax match outlineBracket /[][(){}]/
syntax match outlineHole /{\s*?\s*}/
syntax match outlineComment /#.*$/ contains=outlineTodo,@Spell
syntax keyword outlineTodo TODO FIXME contained

highlight default link outlineDeclaration Keyword
highlight default link outlineControl Conditional
highlight default link outlineOperator Operator
highlight default link outlineAction Function
highlight default link outlineConstant Constant
highlight default link outlineSort Type
highlight default link outlineLink Keyword
highlight default link outlineStep Statement
highlight default link outlineLabel Label
highlight default link outlineNumber Number
highlight default link outlineMark Operator
highlight default link outlineBracket Delimiter
highlight default link outlineHole Todo
highlight default link outlineComment Comment
highlight default link outlineTodo Todo

let b:current_syntax = 'outline'
