" Vim syntax of the text language of denovo: docs/LANGUAGE.md defines it.
" The words of a statement count at its place alone, at the beginning of a line or behind a label: elsewhere `add` may be a name.
if exists('b:current_syntax')
  finish
endif
let s:keep_cpo = &cpo
set cpo&vim

let s:directives = split('.region .word .lock .phase .task .reads .writes .greads .gwrites .version .forall .raw')
let s:instructions = split('lui auipc jal jalr lb lh lw lbu lhu sb sh sw beq bne blt bge bltu bgeu addi slti sltiu xori ori andi'
      \ . ' slli srli srai and or xor add sub slt sltu sll srl sra fence ecall ebreak')
" what stands for one or two of the instructions above
let s:pseudo = split('nop ret mv not neg seqz snez beqz bnez j jr li la')
let s:registers = split('x0 x1 x2 x3 x4 x5 x6 x7 x8 x9 x10 x11 x12 x13 x14 x15 x16 x17 x18 x19 x20 x21 x22 x23 x24 x25 x26 x27 x28 x29 x30 x31'
      \ . ' zero ra sp gp tp fp t0 t1 t2 t3 t4 t5 t6 s0 s1 s2 s3 s4 s5 s6 s7 s8 s9 s10 s11 a0 a1 a2 a3 a4 a5 a6 a7')

let s:begin = '\%(^\s*\%([A-Za-z_.][A-Za-z0-9_.]*\s*:\s*\)\?\)\@<='
let s:apart = '[A-Za-z0-9_.]\@1<!'
let s:end = '[A-Za-z0-9_.]\@!'

" of matches that begin at one place Vim takes the one that is defined last
function! s:Words(group, before, words) abort
  execute 'syntax match' a:group '"' . a:before . '\%(' . escape(join(a:words, '\|'), '.') . '\)' . s:end . '"'
endfunction

syntax match denovoName "[A-Za-z_.][A-Za-z0-9_.]*"
call s:Words('denovoRegister', s:apart, s:registers)
syntax match denovoUnknown "\%(^\s*\%([A-Za-z_.][A-Za-z0-9_.]*\s*:\s*\)\?\)\@<=[A-Za-z_.][A-Za-z0-9_.]*"
call s:Words('denovoDirective', s:begin, s:directives)
call s:Words('denovoInstruction', s:begin, s:instructions)
call s:Words('denovoPseudo', s:begin, s:pseudo)
syntax match denovoLabel "^\s*\zs[A-Za-z_.][A-Za-z0-9_.]*\ze\s*:"
" a token that begins as a number and is none is shown as an error
syntax match denovoNotNumber "[A-Za-z0-9_.-]\@1<![0-9-][A-Za-z0-9_.]*"
syntax match denovoNumber "[A-Za-z0-9_.-]\@1<!-\?\%(0x\x\+\|\d\+\)[A-Za-z0-9_.]\@!"
syntax match denovoSeparator "[,:()]"
syntax match denovoComment "#.*$" contains=@Spell

highlight default link denovoComment Comment
highlight default link denovoLabel Label
highlight default link denovoDirective PreProc
highlight default link denovoInstruction Statement
highlight default link denovoPseudo Statement
highlight default link denovoRegister Identifier
highlight default link denovoNumber Number
highlight default link denovoSeparator Delimiter
highlight default link denovoNotNumber Error
highlight default link denovoUnknown Error

let b:current_syntax = 'denovo'
let &cpo = s:keep_cpo
unlet s:keep_cpo
