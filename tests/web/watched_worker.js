// Goes before the code of a worker of mkpasswd.mjs in node. It counts in the worker what scrypt.mjs
// reports: the instances of the module, the pages of 64 KiB by which their memory grows, and the
// answers before which a memory wasn't wiped. `workerData` has the array to count in, and whether
// the worker's first login traps after its work.
{
    const { parentPort, workerData } = require('node:worker_threads');
    const { counts, isTrapping } = workerData;
    const [INSTANCES, PAGES, UNWIPED] = [0, 1, 2];
    const instances = [];
    let hasTrapped = false;

    // Returns whether a memory is as it was in the beginning, or has only zeros there, as one that
    // is thrown away; and whether it has only zeros where it has grown.
    function isWiped({ memory, initial }) {
        const bytes = Buffer.from(memory.buffer);
        const begin = bytes.subarray(0, initial.length);
        const grown = bytes.subarray(initial.length);
        const isAsInitial = begin.equals(initial) || begin.equals(Buffer.alloc(begin.length));
        return isAsInitial && grown.equals(Buffer.alloc(grown.length));
    }

    const { Instance } = WebAssembly;
    WebAssembly.Instance = function (compiled) {
        const { exports } = new Instance(compiled);
        const { memory } = exports;
        instances.push({ memory, initial: Buffer.from(memory.buffer.slice()) });
        counts[INSTANCES] += 1;
        function login(...words) {
            const result = exports.web_login(...words);
            if (!isTrapping || hasTrapped) return result;
            hasTrapped = true;
            throw new WebAssembly.RuntimeError('unreachable');
        }
        return { exports: { ...exports, web_login: login } };
    };

    const { grow } = WebAssembly.Memory.prototype;
    WebAssembly.Memory.prototype.grow = function (pages) {
        const before = grow.call(this, pages);
        counts[PAGES] += pages;
        return before;
    };

    const { postMessage } = parentPort;
    parentPort.postMessage = function (answer) {
        if (!instances.every(isWiped)) counts[UNWIPED] += 1;
        postMessage.call(parentPort, answer);
    };
}
