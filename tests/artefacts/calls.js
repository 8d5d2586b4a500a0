// Makes the calls of a trace of tests/library_calls.py in the module, and compares what each comes to: node calls.js pp6600.wasm TRACE
const crypto = require("crypto"), files = require("fs");
const GUARD = 32, HANDLES = 3, PATTERN = 250;
const guard = Uint8Array.from({ length: GUARD }, (_, at) => 200 + at);

// Returns the bytes of a buffer before its call, or nothing if a word of the call is no buffer.
const bytesOf = (word) => (typeof word === "string" ? Buffer.from(word, "hex")
  : word.filled !== undefined ? Buffer.from(Array.from({ length: word.filled }, (_, at) => (at % PATTERN) + 1)) : undefined);

// Makes a call with its buffers between guards in one room. Returns its status and the checksum of the buffers.
function made(calls, handles, name, given) {
  const buffers = given.map(bytesOf).filter((one) => one);
  const padded = buffers.map((buffer) => 2 * GUARD + 8 * Math.ceil(buffer.length / 8) + 8);
  const room = calls.pp6600_room(BigInt(padded.reduce((sum, size) => sum + size, 8)));
  const at = padded.map((_, index) => Number(room) + padded.slice(0, index).reduce((sum, size) => sum + size, 0) + GUARD);
  const view = (from, size) => new Uint8Array(calls.memory.buffer, from, size);
  buffers.forEach((buffer, index) => {
    view(at[index] - GUARD, GUARD).set(guard);
    view(at[index], buffer.length).set(buffer);
    view(at[index] + buffer.length, GUARD).set(guard);
  });
  let next = 0;
  const words = given.map((one) => {
    if (bytesOf(one)) return BigInt(at[next++]);
    if (typeof one === "number") return handles[one];
    return one[0] === "size" ? BigInt.asIntN(64, BigInt(one[1])) : Number(one[1]);
  });
  const status = calls[`pp6600_${name}`](...words);
  const sum = crypto.createHash("sha1");
  buffers.forEach((buffer, index) => {
    for (const from of [at[index] - GUARD, at[index] + buffer.length]) {
      if (!Buffer.from(view(from, GUARD)).equals(Buffer.from(guard))) throw new Error(`${name} writes outside a buffer`);
    }
    sum.update(view(at[index], buffer.length));
  });
  calls.pp6600_end_room(room);
  return [status, sum.digest("hex")];
}

(async () => {
  const calls = (await WebAssembly.instantiate(files.readFileSync(process.argv[2]), {})).instance.exports;
  let count = 0;
  for (const [seed, trace] of files.readFileSync(process.argv[3], "utf8").trim().split("\n").map(JSON.parse)) {
    const handles = Array.from({ length: HANDLES }, () => calls.pp6600_room(8n));
    handles.forEach((handle) => new BigUint64Array(calls.memory.buffer, Number(handle), 1).fill(0n));
    trace.forEach(([name, given, ...wanted], at) => {
      const found = made(calls, handles, name, given);
      if (found.join() !== wanted.join()) throw new Error(`sequence ${seed}, call ${at}, ${name}: ${found}, and not ${wanted}`);
      count++;
    });
    for (const handle of handles) calls.pp6600_close(handle), calls.pp6600_end_room(handle);
  }
  console.log(count);
})();
