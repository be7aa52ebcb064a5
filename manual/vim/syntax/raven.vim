" Vim syntax file
" Language: scripts of ravenhost (docs/SCRIPTS.md, docs/GRAMMAR.md)
" Files:    *.raven
"
" What is refused wherever it stands is shown as an error: an opening of no section, a word that no line of its section has
" there, a reserved word of Ada that unit texts don't take. Names aren't looked up, and no number is judged. A file whose
" lines end by CR LF is to be one throughout ('fileformat' dos).

if exists('b:current_syntax')
  finish
endif
let s:cpo = &cpo
set cpo&vim

syntax case match
" A section may be of any length, and what a line means hangs on its opening.
syntax sync fromstart

" Before the first section there may be blank lines only.
syntax match ravenError /^.*\S.*$/

" A section goes on to the next line that begins with @; an opening is the word alone. @run goes on to the end.
syntax region ravenUnknown matchgroup=ravenError start=/^@.*/ end=/^@/me=s-1
syntax region ravenUnit matchgroup=ravenOpening start=/^@unit$/ end=/^@/me=s-1 fold keepend contains=@ravenAda
syntax region ravenShape matchgroup=ravenOpening start=/^@shape$/ end=/^@/me=s-1 fold keepend contains=@ravenShapes
syntax region ravenList matchgroup=ravenOpening start=/^@list$/ end=/^@/me=s-1 fold keepend contains=@ravenLists
syntax region ravenSteps matchgroup=ravenOpening start=/^@steps$/ end=/^@/me=s-1 fold keepend contains=@ravenRequests
syntax region ravenJournal matchgroup=ravenOpening start=/^@journal$/ end=/^@/me=s-1 fold keepend contains=@ravenEntries
syntax region ravenSettings matchgroup=ravenOpening start=/^@host\.toml$/ end=/^@/me=s-1 fold keepend contains=@ravenToml
syntax region ravenRun matchgroup=ravenOpening start=/^@run$/ end=/\%$/ contains=@ravenCommands

" Unit texts: the part of Ada 2012 of docs/GRAMMAR.md. Case says nothing there.
syntax cluster ravenAda contains=ravenAdaWord,ravenAdaOperator,ravenAdaType,ravenAdaName,ravenAdaBoolean,ravenAdaNumber
syntax cluster ravenAda add=ravenAdaAttribute,ravenAdaComment,ravenAdaPragma,ravenAdaRefused,ravenAdaAbsent,ravenAdaError
syntax case ignore
syntax keyword ravenAdaWord contained package body is private end with use type protected task entry
syntax keyword ravenAdaWord contained subtype constant range function procedure return in out when
syntax keyword ravenAdaWord contained begin exception others null if then elsif else case
syntax keyword ravenAdaWord contained while for reverse loop exit raise delay until
syntax keyword ravenAdaOperator contained and or xor not abs mod rem
syntax keyword ravenAdaType contained Integer Natural Positive Boolean Time Time_Span Suspension_Object
syntax keyword ravenAdaType contained Any_Priority Default_Priority Constraint_Error Program_Error Access_Denied
syntax keyword ravenAdaName contained Attach_Handler Interrupt_Priority Priority Clock Milliseconds
syntax keyword ravenAdaName contained Set_True Set_False Current_State Suspend_Until_True
syntax match ravenAdaName contained /\<Int_\d\>/
syntax keyword ravenAdaBoolean contained True False
syntax match ravenAdaPragma contained /\<pragma\>/
syntax match ravenAdaNumber contained /\<\d\+\%(_\d\+\)*\>/
syntax match ravenAdaAttribute contained /'\s*\%(First\|Last\)\>/hs=s+1
" Read, and refused by the profile's restrictions; then the reserved words that stand nowhere in a unit text.
syntax keyword ravenAdaRefused contained abort accept do requeue select terminate
syntax keyword ravenAdaAbsent contained abstract access aliased all array at declare delta digits
syntax keyword ravenAdaAbsent contained generic goto interface limited new of overriding
syntax keyword ravenAdaAbsent contained record renames separate some synchronized tagged
" Characters of no word and **, identifiers with underscores out of place, literals that go on with a fraction or a letter.
syntax match ravenAdaError contained /[!"#$%&?@[\\\]^`{}~]\|[[:cntrl:]]\@=\S\|\*\*\|[^\x00-\x7f]/
syntax match ravenAdaError contained /\<_\w*\|\<\a\w*__\w*\|\<\a\w*_\>/
syntax match ravenAdaError contained /\<\d[0-9_]*\%(\.\d\|\a\)\w*/
syntax match ravenAdaNumber contained /\<\d\+\%(_\d\+\)*#\x\+\%(_\x\+\)*#/
syntax match ravenAdaComment contained /--.*$/ contains=@Spell
syntax case match

" Lists. A line whose first character is # is a comment; with a blank before it, it is none.
syntax cluster ravenLists contains=ravenListComment,ravenListWord,ravenListError
syntax match ravenListError contained /\S.*/
syntax match ravenListComment contained /^#.*/ contains=@Spell
syntax cluster ravenLine contains=ravenListWord
syntax match ravenListWord contained /\<\%(allow\|deny\)\ze\%(\s\|$\)/ nextgroup=ravenListUnit,ravenListError skipwhite
syntax match ravenListUnit contained /\%(\*\|\a\w*\)\ze\s/ nextgroup=ravenListObject,ravenListError skipwhite
syntax match ravenListObject contained /\%(\*\|\a\w*\.\a\w*\)\ze\s/ nextgroup=ravenListOperation,ravenListError skipwhite
syntax match ravenListOperation contained /\%(\*\|\a\w*\)\ze\%(\s\|$\)/ nextgroup=ravenListFrom,ravenListError skipwhite
syntax match ravenListFrom contained /\c\<from\ze\s/ nextgroup=ravenListFirst,ravenListError skipwhite
syntax match ravenListFirst contained /\<\d\{1,18}\ze\s/ nextgroup=ravenListUntil,ravenListError skipwhite
syntax match ravenListUntil contained /\c\<until\ze\s/ nextgroup=ravenListLast,ravenListError skipwhite
syntax match ravenListLast contained /\<\d\{1,18}\ze\%(\s\|$\)/ nextgroup=ravenListError skipwhite

" Shapes. There are no comments.
syntax cluster ravenShapes contains=ravenShapeWord,ravenShapeError
syntax match ravenShapeError contained /\S.*/
syntax match ravenShapeWord contained /^\s*\zs\%(unit\|task\|suspension\|protected\)\ze\s/ nextgroup=ravenShapeName,ravenShapeError skipwhite
syntax match ravenShapeWord contained /^\s*\zs\%(function\|procedure\|entry\|handler\)\ze\s/ nextgroup=ravenShapeName,ravenShapeError skipwhite
syntax match ravenShapeWord contained /^\s*\zsscalar\ze\s/ nextgroup=ravenShapeNumber,ravenShapeError skipwhite
syntax match ravenShapeName contained /\a\w*\ze\%(\s\|$\)/ nextgroup=ravenShapeNumber,ravenShapeMode,ravenShapeBarrier,ravenShapeError skipwhite
syntax match ravenShapeNumber contained /-\=\d\{1,18}\ze\%(\s\|$\)/ nextgroup=ravenShapeNumber,ravenShapeMode,ravenShapeError skipwhite
syntax match ravenShapeMode contained /\%(in\|out\|inout\)\ze\%(\s\|$\)/ nextgroup=ravenShapeNumber,ravenShapeError skipwhite
syntax match ravenShapeBarrier contained /\%(open\|closed\)\ze\%(\s\|$\)/ nextgroup=ravenShapeMode,ravenShapeError skipwhite

" Steps: an actor and its request. There are no comments.
syntax cluster ravenRequests contains=ravenActor,ravenRequestError
syntax match ravenRequestError contained /\S.*/
syntax cluster ravenAsked contains=ravenRequest,ravenCall,ravenEnd,ravenRequestError
syntax match ravenActor contained /^\s*\zs\a\w*\.\a\w*\ze\%(\s\|$\)/ nextgroup=@ravenAsked skipwhite
syntax match ravenActor contained /^\s*\zs\cInt_\d\ze\%(\s\|$\)/ nextgroup=@ravenAsked skipwhite
syntax match ravenActor contained /^\s*\zs\coperator\ze\%(\s\|$\)/ nextgroup=@ravenAsked,ravenChange skipwhite
syntax match ravenRequest contained /\%(settle\|resume\|clock\|fire\|finish\|halt\)\ze\%(\s\|$\)/ nextgroup=ravenRequestError skipwhite
syntax match ravenRequest contained /\%(delay\|tick\|archive\)\ze\s/ nextgroup=ravenLastNumber,ravenRequestError skipwhite
syntax match ravenRequest contained /go\ze\%(\s\|$\)/ nextgroup=ravenLastNumber,ravenRequestError skipwhite
syntax match ravenLastNumber contained /-\=\d\{1,18}\ze\%(\s\|$\)/ nextgroup=ravenRequestError skipwhite
syntax match ravenCall contained /call\ze\s/ nextgroup=ravenObject,ravenRequestError skipwhite
syntax match ravenObject contained /\a\w*\.\a\w*\ze\s/ nextgroup=ravenOperation,ravenRequestError skipwhite
syntax match ravenOperation contained /\a\w*\ze\%(\s\|$\)/ nextgroup=ravenValue,ravenRequestError skipwhite
syntax match ravenValue contained /-\=\d\{1,18}\ze\%(\s\|$\)/ nextgroup=ravenValue,ravenRequestError skipwhite
syntax match ravenEnd contained /end\ze\s/ nextgroup=ravenScalar,ravenExitMark,ravenRequestError skipwhite
syntax match ravenScalar contained /-\=\d\{1,18}\ze\s/ nextgroup=ravenScalar,ravenExitMark,ravenRequestError skipwhite
syntax match ravenExitMark contained /:\ze\s/ nextgroup=ravenExit,ravenRaise,ravenRequestError skipwhite
syntax match ravenExit contained /\%(return\)\ze\%(\s\|$\)/ nextgroup=ravenValue,ravenRequestError skipwhite
syntax match ravenExit contained /\%(overrun\|stopped\)\ze\%(\s\|$\)/ nextgroup=ravenRequestError skipwhite
syntax match ravenRaise contained /raise\ze\s/ nextgroup=ravenException,ravenRequestError skipwhite
syntax match ravenException contained /\c\%(Constraint_Error\|Program_Error\|Host\.Access_Denied\)\ze\%(\s\|$\)/ nextgroup=ravenRequestError skipwhite
syntax match ravenChange contained /append\ze\s/ nextgroup=@ravenLine,ravenListError skipwhite
syntax match ravenChange contained /remove\ze\s/ nextgroup=ravenLastNumber,ravenRequestError skipwhite
syntax match ravenChange contained /replace\ze\s/ nextgroup=ravenChanged,ravenRequestError skipwhite
syntax match ravenChanged contained /-\=\d\{1,18}\ze\s/ nextgroup=@ravenLine,ravenListError skipwhite

" Behind @run: the operator's commands, and unit texts between load and @end.
syntax cluster ravenCommands contains=ravenLoad,ravenCommand,ravenChange,ravenCommandError
syntax match ravenCommandError contained /\S.*/
syntax match ravenCommand contained /^\s*\zs\%(halt\|quit\|help\|list\|status\|journal\)\ze\s*$/
syntax match ravenCommand contained /^\s*\zs\%(tick\|journal\|raise\)\ze\s/ nextgroup=ravenLastNumber,ravenRequestError skipwhite
syntax match ravenChange contained /^\s*\zsappend\ze\s/ nextgroup=@ravenLine,ravenListError skipwhite
syntax match ravenChange contained /^\s*\zsremove\ze\s/ nextgroup=ravenLastNumber,ravenRequestError skipwhite
syntax match ravenChange contained /^\s*\zsreplace\ze\s/ nextgroup=ravenChanged,ravenRequestError skipwhite
syntax region ravenLoad contained matchgroup=ravenCommand start=/^\s*load\s*$/ end=/^@end$/ keepend contains=@ravenAda

" Journals.
syntax cluster ravenEntries contains=ravenEntryNumber,ravenEntryError
syntax match ravenEntryError contained /\S.*/
syntax match ravenEntryNumber contained /^\d\+\ze / nextgroup=ravenEntryActor,ravenEntryError skipwhite
syntax match ravenEntryActor contained /\a\w*\%(\.\a\w*\)\=\ze / nextgroup=ravenEntryRequest,ravenEntryError skipwhite
syntax cluster ravenEntryWords contains=ravenEntryWord,ravenEntryLine,ravenEntryValue
syntax match ravenEntryRequest contained /\S.*\ze -> / contains=@ravenEntryWords nextgroup=ravenArrow skipwhite
syntax match ravenEntryWord contained /\<\%(load\|list\|call\|end\|settle\|resume\|delay\|clock\|fire\|tick\|halt\|archive\|finish\)\>/
syntax match ravenEntryWord contained /\<\%(return\|raise\|overrun\|stopped\)\>/
syntax match ravenEntryLine contained /\<\%(allow\|deny\|from\|until\)\>/
syntax match ravenEntryValue contained /\%(^\|\s\)\@1<=-\=\d\+\ze\%(\s\|$\)/
syntax match ravenArrow contained /->/ nextgroup=ravenRefusal,ravenAnswer,ravenEntryError skipwhite
syntax match ravenRefusal contained /refused\ze / nextgroup=ravenAnswerRest skipwhite
syntax match ravenAnswer contained /\%(accepted\|started\|queued\|suspended\|delayed\|done\|woken\)\ze\%( \|$\)/ nextgroup=ravenAnswerRest skipwhite
syntax match ravenAnswerRest contained /\S.*/ contains=ravenAnswerWord,ravenEntryValue
syntax match ravenAnswerWord contained /\<\%(line\|version\|handed\|dropped\)\>/

" Settings, in TOML. A bare key that there isn't is an error.
syntax cluster ravenToml contains=ravenTomlKey,ravenTomlBadKey,ravenTomlTable,ravenTomlString,ravenTomlNumber,ravenTomlComment
syntax match ravenTomlBadKey contained /\%(^\|[{,]\)\@1<=\s*\zs[A-Za-z0-9_-]\+\ze\s*=/
syntax match ravenTomlKey contained /\%(^\|[{,]\)\@1<=\s*\zs\%(capacity\|budget\|queue_limit\|device\|unit\|task\|object\|operation\|priority\|calls\)\ze\s*=/
syntax match ravenTomlBadKey contained /^\s*\zs\[.*/
syntax match ravenTomlTable contained /^\s*\[\[\s*device\s*\]\]/
syntax match ravenTomlNumber contained /=\@1<=\s*\zs[+-]\=\d[0-9A-Za-z_]*/
syntax region ravenTomlString contained oneline start=/"/ skip=/\\./ end=/"/
syntax region ravenTomlString contained oneline start=/'/ end=/'/
syntax match ravenTomlComment contained /#.*/ contains=@Spell

highlight default link ravenOpening PreProc
highlight default link ravenError Error

highlight default link ravenAdaWord Keyword
highlight default link ravenAdaOperator Operator
highlight default link ravenAdaType Type
highlight default link ravenAdaName Function
highlight default link ravenAdaBoolean Boolean
highlight default link ravenAdaPragma PreProc
highlight default link ravenAdaNumber Number
highlight default link ravenAdaAttribute Special
highlight default link ravenAdaComment Comment
highlight default link ravenAdaRefused Error
highlight default link ravenAdaAbsent Error
highlight default link ravenAdaError Error

highlight default link ravenListError Error
highlight default link ravenListComment Comment
highlight default link ravenListWord Statement
highlight default link ravenListUnit Identifier
highlight default link ravenListObject Identifier
highlight default link ravenListOperation Function
highlight default link ravenListFrom Keyword
highlight default link ravenListUntil Keyword
highlight default link ravenListFirst Number
highlight default link ravenListLast Number

highlight default link ravenShapeError Error
highlight default link ravenShapeWord Statement
highlight default link ravenShapeName Identifier
highlight default link ravenShapeNumber Number
highlight default link ravenShapeMode Type
highlight default link ravenShapeBarrier Boolean

highlight default link ravenRequestError Error
highlight default link ravenActor Identifier
highlight default link ravenRequest Statement
highlight default link ravenCall Statement
highlight default link ravenEnd Statement
highlight default link ravenChange Statement
highlight default link ravenObject Identifier
highlight default link ravenOperation Function
highlight default link ravenValue Number
highlight default link ravenScalar Number
highlight default link ravenLastNumber Number
highlight default link ravenChanged Number
highlight default link ravenExitMark Delimiter
highlight default link ravenExit Keyword
highlight default link ravenRaise Keyword
highlight default link ravenException Type

highlight default link ravenCommand Statement
highlight default link ravenCommandError Error

highlight default link ravenEntryError Error
highlight default link ravenEntryNumber LineNr
highlight default link ravenEntryActor Identifier
highlight default link ravenEntryWord Statement
highlight default link ravenEntryLine Statement
highlight default link ravenEntryValue Number
highlight default link ravenArrow Delimiter
highlight default link ravenRefusal WarningMsg
highlight default link ravenAnswer Type
highlight default link ravenAnswerWord Keyword

highlight default link ravenTomlKey Identifier
highlight default link ravenTomlBadKey Error
highlight default link ravenTomlTable Structure
highlight default link ravenTomlString String
highlight default link ravenTomlNumber Number
highlight default link ravenTomlComment Comment

let b:current_syntax = 'raven'
let &cpo = s:cpo
unlet s:cpo
