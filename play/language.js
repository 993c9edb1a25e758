// The colours of the language, for the editor: the classes of tools/editors, by docs/LANGUAGE.md.
const STATEMENT = /(?:\.region|\.word|\.lock|\.phase|\.task|\.reads|\.writes|\.greads|\.gwrites|\.version|\.forall|\.raw)(?![A-Za-z0-9_.])/;
const INSTRUCTION = new RegExp('(?:lui|auipc|jalr|jal|lbu|lhu|lb|lh|lw|sb|sh|sw|beq|bne|bltu|blt|bgeu|bge|addi|sltiu|slti|xori|ori|andi|slli|' +
  'srli|srai|and|or|xor|add|sub|sltu|slt|sll|srl|sra|fence|ecall|ebreak)(?![A-Za-z0-9_.])');
const PSEUDO = /(?:nop|ret|mv|not|neg|seqz|snez|beqz|bnez|jr|j|li|la)(?![A-Za-z0-9_.])/;
const REGISTER = /(?:x(?:[12][0-9]|3[01]|[0-9])|zero|ra|sp|gp|tp|fp|t[0-6]|s(?:1[01]|[0-9])|a[0-7])(?![A-Za-z0-9_.])/;

const operands = [
  {regex: /#.*/, token: 'comment'},
  {regex: REGISTER, token: 'variable-2'},
  {regex: /-?(?:0x[0-9a-fA-F]+|[0-9]+)(?![A-Za-z0-9_.])/, token: 'number'},
  {regex: /[0-9-][A-Za-z0-9_.]*/, token: 'error'},
  {regex: /[A-Za-z_.][A-Za-z0-9_.]*/, token: 'variable'},
  {regex: /[,:()]/, token: 'punctuation'},
];

/** Defines the mode `denovo` of the editor. */
export function defineLanguage(editor) {
  editor.defineSimpleMode('denovo', {
    start: [
      {regex: /\s*#.*/, token: 'comment', sol: true},
      {regex: /(\s*)([A-Za-z_.][A-Za-z0-9_.]*)(\s*)(:)/, token: [null, 'tag', null, 'punctuation'], sol: true, next: 'statement'},
      {regex: /\s+/, token: null, sol: true, next: 'statement'},
      {regex: STATEMENT, token: 'keyword', sol: true, next: 'operands'},
      {regex: INSTRUCTION, token: 'builtin', sol: true, next: 'operands'},
      {regex: PSEUDO, token: 'builtin', sol: true, next: 'operands'},
      {regex: /[A-Za-z_.][A-Za-z0-9_.]*/, token: 'error', sol: true, next: 'operands'},
      ...operands,
    ],
    statement: [
      {regex: /(?=.)/, token: null, sol: true, next: 'start'},
      {regex: /\s+/, token: null},
      {regex: STATEMENT, token: 'keyword', next: 'operands'},
      {regex: INSTRUCTION, token: 'builtin', next: 'operands'},
      {regex: PSEUDO, token: 'builtin', next: 'operands'},
      ...operands,
    ],
    operands: [
      {regex: /(?=.)/, token: null, sol: true, next: 'start'},
      ...operands,
    ],
    meta: {lineComment: '#'},
  });
}
