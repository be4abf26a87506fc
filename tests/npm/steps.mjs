// Reads fields as JSON, and reports for each how many steps a login took in the module of
// logged/mkpasswd.mjs, which wasm-opt has instrumented to count them.
import { readFileSync } from 'node:fs';

let steps = 0;
const { Instance } = WebAssembly;
WebAssembly.Instance = function (compiled) {
    return new Instance(compiled, { env: { log_execution() { steps++; } } });
};
const { Policy } = await import('./logged/mkpasswd.mjs');

const policy = new Policy({ rounds: 1000 });
function stepsOf(field) {
    steps = 0;
    policy.login('password', field);
    return steps;
}
console.log(JSON.stringify(JSON.parse(readFileSync(0, 'utf8')).map(stepsOf)));
