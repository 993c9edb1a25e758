// Makes the calls that tools/check_play asks for, one JSON text a line, in Node, and writes what each answered:
//   {call: [program, words, sources]}          the exit code, the length and the checksum of the answer
//   {limit: bytes, call: [..]}                 the same, in an instance of its own whose memory grows no further, and then once more without the bound
//   {walk: [text, sizes, seed, steps]}         a checksum of the enabled events and results of a walk by chance, and the words at its end
// Sources are in base64. It is called with the path of the module.
import {createHash} from 'node:crypto';
import {readFileSync} from 'node:fs';
import readline from 'node:readline';
import v8 from 'node:v8';
import {Library} from '../javascript/machine.mjs';

const PROBE = Uint8Array.of(0, 97, 115, 109, 1, 0, 0, 0, 5, 3, 1, 4, 1);
if (!WebAssembly.validate(PROBE)) v8.setFlagsFromString('--experimental-wasm-memory64');
const module = new WebAssembly.Module(readFileSync(process.argv[2]));
const library = await Library.of(module);
const sumOf = bytes => createHash('sha256').update(bytes).digest('hex');
const bytesIn = text => new Uint8Array(Buffer.from(text, 'base64'));

function called(instance, [program, words, sources]) {
  const {code, bytes} = instance.call(program, words, ...sources.map(bytesIn));
  return [code, bytes.length, sumOf(bytes)];
}

/** A call within a bound, and then without one: an instance that lacked memory isn't damaged by it. */
async function limited(bytes, call) {
  const instance = await Library.of(module);
  instance.limitMemory(bytes);
  const first = called(instance, call);
  instance.limitMemory(2 ** 40);
  return [first, called(instance, call)];
}

/** The next number of the generator that tools/check_play has too. */
const following = state => (Math.imul(state, 1103515245) + 12345) >>> 0;

function walked([text, sizes, seed, steps]) {
  const machine = library.machine(), sum = createHash('sha256');
  sum.update(`${machine.open(bytesIn(text), sizes)}\n`);
  for (let step = 0, state = seed; step < steps; step++) {
    const {lines} = machine.enabled();
    sum.update(lines.join(',') + '\n');
    if (!lines.length) break;
    state = following(state);
    const event = (state >>> 8) % 16 === 0 ? 'a 0' : lines[(state >>> 12) % lines.length];
    sum.update(`${event} ${machine.step(event)}\n`);
  }
  const words = Array.from({length: 64}, (_, word) => machine.word(word));
  const found = [sum.digest('hex'), machine.made, sumOf(words.join(' '))];
  machine.close();
  return found;
}

for await (const line of readline.createInterface({input: process.stdin})) {
  const {call, limit, walk} = JSON.parse(line);
  const answer = walk ? walked(walk) : limit === undefined ? called(library, call) : await limited(limit, call);
  process.stdout.write(JSON.stringify(answer) + '\n');
}
