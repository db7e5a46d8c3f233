// A program (replay.c, painted.c) on wasm32: `node wasm.mjs PROGRAM.wasm`. The module asks for put() and for nothing else.
import fs from "node:fs";
let text = "";
const put = (c) => { text += String.fromCharCode(c); };
const { instance } = await WebAssembly.instantiate(fs.readFileSync(process.argv[2]), { env: { put } });
const status = instance.exports.work();
process.stdout.write(text);
process.exitCode = status;
