// A worker of mkpasswd.mjs, in node or a browser. Its first message has the compiled module, and
// each later one a call. It posts the result of the call, or why it failed.
/*@CALLS@*/
const isNode = typeof require === 'function';
const port = isNode ? require('node:worker_threads').parentPort : globalThis;
let calls;

function runCall({ name, args }) {
    try {
        return { result: calls[name](...args) };
    } catch ({ message, reason }) {
        return { failure: { message, reason } };
    }
}

port.onmessage = ({ data }) => {
    if (data.compiled) {
        calls = new Calls(data.compiled, { keepsMemory: true });
    } else {
        port.postMessage(runCall(data));
    }
};
