// WebAssembly for tests/port.sh:
//   node wasm.mjs MODULE           runs a test program, which imports put, a text by its address, and exports test
//   node wasm.mjs OBJECT sizes     bytes of an object's code, constants and writable data: all its data counts as constants, since the library has no other
//   node wasm.mjs OBJECT asks      the functions that an object wants to be linked with
import { readFileSync, writeSync } from 'node:fs';

const [file, what = 'run'] = process.argv.slice(2);
const bytes = readFileSync(file);

async function run() {
    let memory;
    const put = (at) => {
        const all = new Uint8Array(memory.buffer);
        writeSync(1, all.slice(at, all.indexOf(0, at)));
    };
    const { instance } = await WebAssembly.instantiate(bytes, { env: { put } });
    memory = instance.exports.memory;
    process.exit(instance.exports.test());
}

// [id, bytes] of each section: after 8 bytes of header an id, its length in groups of 7 bits, and that many bytes
function sections() {
    const found = [];
    for (let at = 8; at < bytes.length;) {
        const id = bytes[at++];
        let length = 0, shift = 0, group;
        do { group = bytes[at++]; length |= (group & 127) << shift; shift += 7; } while (group & 128);
        found.push([id, length]);
        at += length;
    }
    return found;
}
const section = (id) => sections().filter((s) => s[0] === id).reduce((n, s) => n + s[1], 0);

if (what === 'run') await run();
if (what === 'sizes') console.log(section(10), section(11), 0);
if (what === 'asks') {
    const functions = WebAssembly.Module.imports(new WebAssembly.Module(bytes)).filter((i) => i.kind === 'function');
    console.log(functions.map((i) => i.name).sort().join(' '));
}
