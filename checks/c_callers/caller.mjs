// Calls the verifier as a wasm64 module: caller.mjs MODULE. It has no imports. Each answer is written here.
import fs from 'node:fs';

const { instance } = await WebAssembly.instantiate(fs.readFileSync(process.argv[2]), {});
const lfi = instance.exports;
const heap = Number(lfi.__heap_base.value);
const fault = Math.ceil(heap / 64) * 64, state = fault + 64, code = fault + 128;

// Room for a megabyte of code behind what the module uses itself.
const missing = Math.ceil((code + 1048576 - lfi.memory.buffer.byteLength) / 65536);
if (missing > 0) {
  try {
    lfi.memory.grow(BigInt(missing));
  } catch {
    lfi.memory.grow(missing);
  }
}

function put(words) {
  new Uint32Array(lfi.memory.buffer, code, words.length).set(words);
  return BigInt(4 * words.length);
}

function told(status) {
  const [word, rule] = new Uint32Array(lfi.memory.buffer, fault, 2);
  return `${status} ${word} ${rule}`;
}

const whole = (words, profile = 1) => {
  const size = put(words);
  return told(lfi.lfi_verify(BigInt(code), size, profile, BigInt(fault)));
};

function pieces(words) {
  put(words);
  lfi.lfi_verify_init(BigInt(state), words.length, 1);
  for (let at = 0; at < words.length; at++) lfi.lfi_verify_update(BigInt(state), BigInt(code + 4 * at), 4n);
  return told(lfi.lfi_verify_final(BigInt(state), BigInt(fault)));
}

const RET = 0xD65F03C0, SVC = 0xD4000001, NOP = 0xD503201F, PUSH = 0xD10043FF;
const long = new Array(200000).fill(NOP);
const rows = [
  [[RET], '0 0 0'],
  [[RET, SVC], '1 1 1'],
  [[NOP, 0x14000001], '1 1 8'],
  [[0xF94006BE, 0xD63F03C0], '0 0 0'],
  [[PUSH], '1 0 10'],
  [long, '0 0 0'],
  [[...long, PUSH], '1 200000 10'],
];
for (const [words, wanted] of rows) {
  const answers = [whole(words), pieces(words)];
  if (answers.some((answer) => answer !== wanted)) {
    console.error(`${words.length} words: ${answers} and not ${wanted}`);
    process.exit(1);
  }
}
const LDAR = 0xC8DFFE40;
if (whole([LDAR]) !== '1 0 1' || whole([LDAR], 2) !== '0 0 0') process.exit(3);
if (whole([RET], 3) !== '5 0 0' || whole([]) !== '2 0 0' || lfi.lfi_version() !== 7) process.exit(2);
