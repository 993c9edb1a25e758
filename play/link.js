// A text with its settings in an address: JSON, compressed by the browser's own deflate, in the letters of base64 for addresses.

async function through(bytes, transform) {
  return new Uint8Array(await new Response(new Blob([bytes]).stream().pipeThrough(transform)).arrayBuffer());
}

/** The part of an address behind # that has this in it. */
export async function packed(value) {
  const bytes = await through(new TextEncoder().encode(JSON.stringify(value)), new CompressionStream('deflate-raw'));
  let letters = '';
  for (let at = 0; at < bytes.length; at += 4096) letters += String.fromCharCode(...bytes.subarray(at, at + 4096));
  return 'play=' + btoa(letters).replaceAll('+', '-').replaceAll('/', '_').replaceAll('=', '');
}

// what is unpacked has at most so many bytes: a text of 1 MiB, each byte of which may be written by six
const MOST_BYTES = 8 << 20;

/** What such a part has in it; null where it has nothing that can be read. */
export async function unpackedLink(hash) {
  const found = /^#?play=([A-Za-z0-9_-]+)$/.exec(hash);
  if (!found) return null;
  try {
    const bytes = Uint8Array.from(atob(found[1].replaceAll('-', '+').replaceAll('_', '/')), letter => letter.charCodeAt(0));
    return checked(JSON.parse(new TextDecoder().decode(await atMost(bytes))));
  } catch {
    return null;
  }
}

/* A link may come from anybody: what it unpacks to is bounded, and read no further than it has to be. */
async function atMost(bytes) {
  const reader = new Blob([bytes]).stream().pipeThrough(new DecompressionStream('deflate-raw')).getReader(), parts = [];
  for (let size = 0; ;) {
    const {done, value} = await reader.read();
    if (done) return new Uint8Array(await new Blob(parts).arrayBuffer());
    parts.push(value);
    size += value.length;
    if (size > MOST_BYTES) throw new RangeError('too large');
  }
}

const isNumber = value => Number.isInteger(value) && value >= 0 && value < 2 ** 32;
const text = value => typeof value === 'string' ? value : '';
const list = value => Array.isArray(value) ? value : [];

/* What a link has, with each part of its own type. */
function checked(given) {
  if (typeof given !== 'object' || given === null || typeof given.text !== 'string') return null;
  const settings = Object.fromEntries(Object.entries(given.settings ?? {}).filter(([, value]) => isNumber(value)));
  const locked = list(given.exercise?.locked).filter(pair => Array.isArray(pair) && pair.length === 2 && pair.every(isNumber));
  const exercise = given.exercise
    ? {title: text(given.exercise.title), task: text(given.exercise.task), goals: list(given.exercise.goals).map(text), locked} : null;
  return {text: given.text, settings, tab: text(given.tab), events: list(given.events).map(text), exercise};
}
