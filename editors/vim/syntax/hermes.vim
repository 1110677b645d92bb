" Colours for the language Hermes. A keyword that stands as a part (behind a dot, before a colon, in a list of parts) is
" coloured as a part. Of two matches that begin at one place the later one counts.
if exists('b:current_syntax')
  finish
endif

syntax case match
syntax sync minlines=200

syntax match hermesSign "[][(){},;:.#=<>+*&-]"
syntax match hermesNumber "\<\%(0\|[1-9][0-9]*\)\>"

syntax match hermesBoolean "\<\%(true\|false\)\>"
syntax match hermesWordOperator "\<\%(and\|div\|mod\|not\|or\)\>"
syntax match hermesFunction "\<\%(length\|size\|text\)\>"
syntax match hermesControl "\<\%(case\|else\|exception\|for\|if\|leave\|on\|raise\|return\|select\|try\|when\|while\)\>"
syntax match hermesStorage "\<\%(callmessage\|definitions\|enum\|inport\|key\|of\|outport\|process\|raises\|record\|table\|type\|var\|variant\)\>"
syntax match hermesStatement "\<\%(as\|call\|connect\|create\|discard\|dissolve\|from\|full\|get\|in\|init\|inout\|insert\|into\|move\|new\|out\|receive\|remove\|reveal\|send\|to\|unite\|unwrap\|wrap\)\>"

" Names by the word before them.
syntax match hermesModule "\<definitions\s\+\a\w*" contains=hermesStorageWord
syntax match hermesProcess "\<process\s\+\a\w*" contains=hermesStorageWord
syntax match hermesType "\<\%(type\|of\)\s\+\a\w*" contains=hermesStorageWord
syntax match hermesType "\<as\s\+\a\w*\ze\s\+into\>" contains=hermesAs
syntax match hermesException "\<\%(exception\|on\|raise\)\s\+\a\w*" contains=hermesControlWord
syntax match hermesStorageWord "\<\%(definitions\|process\|type\|of\)\ze\s\+\a" contained
syntax match hermesControlWord "\<\%(exception\|on\|raise\)\ze\s\+\a" contained
syntax match hermesAs "\<as\ze\s\+\a" contained
syntax region hermesCreate matchgroup=hermesStatement start="\<create\>" matchgroup=hermesSign end=";" contains=hermesComment,hermesCreated,hermesPart,hermesSign
syntax match hermesCreated "\<of\s\+\a\w*" contained contains=hermesOf
syntax match hermesOf "\<of\ze\s\+\a" contained

" Parts, declarations and types by the signs around them.
syntax match hermesPart "\.\s*\a\w*" contains=hermesDot
syntax match hermesDot "\." contained
syntax match hermesType "\<\a\w*\ze\s*#"
syntax match hermesValue "#\s*\a\w*" contains=hermesHash
syntax match hermesHash "#" contained
syntax match hermesType ":\s*\a\w*" contains=hermesColon
syntax match hermesColon ":" contained
syntax match hermesDeclared "\<\a\w*\ze\s*:=\@!"
syntax match hermesPart "\<when\s\+\a\w*\ze\s*{" contains=hermesWhen
syntax match hermesWhen "\<when\ze\s\+\a" contained

" Lists.
syntax region hermesFacts matchgroup=hermesStatement start="\<\%(init\|full\|case\)\ze\s*(" matchgroup=hermesSign end=")" contains=hermesComment,hermesListed,hermesSign
syntax region hermesKeys matchgroup=hermesStorage start="\<key\ze\s*(" matchgroup=hermesSign end=")" contains=hermesComment,hermesListed,hermesSign
syntax match hermesListed "\<\a\w*\>" contained
syntax region hermesEnumeration matchgroup=hermesStorage start="\<enum\ze\s*{" matchgroup=hermesSign end="}" contains=hermesComment,hermesNamed,hermesSign
syntax match hermesNamed "\<\a\w*\>" contained
syntax region hermesRaises matchgroup=hermesStorage start="\<raises\ze\s*(" matchgroup=hermesSign end=")" contains=hermesComment,hermesRaised,hermesKept,hermesSign
syntax match hermesRaised "\<\a\w*\>" contained
syntax region hermesKept matchgroup=hermesSign start="{" end="}" contained contains=hermesComment,hermesFacts,hermesSign

syntax region hermesString start=+"+ skip=+\\.+ end=+"+ oneline contains=hermesEscape
syntax match hermesEscape +\\[n"\\]+ contained
syntax match hermesComment "--.*$" contains=@Spell

highlight default link hermesComment Comment
highlight default link hermesString String
highlight default link hermesEscape SpecialChar
highlight default link hermesNumber Number
highlight default link hermesBoolean Boolean
highlight default link hermesWordOperator Operator
highlight default link hermesFunction Function
highlight default link hermesControl Conditional
highlight default link hermesControlWord hermesControl
highlight default link hermesWhen hermesControl
highlight default link hermesStorage StorageClass
highlight default link hermesStorageWord hermesStorage
highlight default link hermesOf hermesStatement
highlight default link hermesStatement Statement
highlight default link hermesAs hermesStatement
highlight default link hermesModule PreProc
highlight default link hermesProcess Identifier
highlight default link hermesCreated hermesProcess
highlight default link hermesType Type
highlight default link hermesException Exception
highlight default link hermesRaised hermesException
highlight default link hermesValue Constant
highlight default link hermesNamed hermesValue

let b:current_syntax = 'hermes'
