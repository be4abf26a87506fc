// The workers of mkpasswd.mjs, in node and in browsers. They make calls, so that the caller's
// thread isn't blocked. A worker runs hasher.js, which tools/web puts here as a string.
const HASHER = "@HASHER@";

const MEBIBYTE = 2 ** 20;

// The most bytes that an instance in a worker keeps from one call to the next. A stored hash of
// scrypt needs little more than 128 MiB at most, unless a policy has a higher budget.
const MOST_KEPT = 144 * MEBIBYTE;

// Runs calls in workers, in the order in which they come. There is one worker fewer than cores, but
// at least one. An idle worker doesn't keep node running. If a worker dies, only its own call
// fails.
//
// A call with scrypt says how much memory it needs. Only as many such calls run at once as there is
// memory for, but one always runs. While one waits for memory, calls that need none go ahead of it.
//
// After scrypt a worker keeps its memory, and the next call with scrypt reuses it. It gives the
// memory back only by ending. So such a worker ends if no waiting call can start when it has
// answered, and after a call that needed more than MOST_KEPT.
class Pool {
    #start;
    #memory;
    #compiled;
    #maxWorkers;
    #countOfWorkers = 0;
    #usedMemory = 0; // bytes that running calls need
    #idle = [];
    #waiting = []; // calls that no worker has taken yet

    // `start` starts a worker, and takes a function for its answers and one for its end. `memory`
    // returns how many bytes all calls together may use at the moment.
    constructor({ cores, start, memory }, compiled) {
        this.#start = start;
        this.#memory = memory;
        this.#compiled = compiled;
        this.#maxWorkers = Math.max(1, cores - 1);
    }

    // Runs a call that needs this many bytes of memory. Resolves to the worker's answer.
    ask(name, args, memory) {
        return new Promise((resolve, reject) => {
            const message = { name, args };
            // `usedByOthers` is the most memory that other calls used when this one found too
            // little, or Infinity if it hasn't run yet.
            this.#waiting.push({ message, memory, usedByOthers: Infinity, resolve, reject });
            this.#distribute();
        });
    }

    #distribute() {
        while (this.#hasWorker()) {
            const call = this.#takeNext();
            if (!call) return;
            try {
                this.#assign(call, this.#idle.pop() ?? this.#newWorker());
            } catch (error) {
                call.reject(error);
            }
        }
    }

    #hasWorker() {
        return this.#idle.length > 0 || this.#countOfWorkers < this.#maxWorkers;
    }

    // Removes the next call that can start from the queue, and returns it. There may be none.
    #takeNext() {
        const [first] = this.#waiting;
        if (!first) return undefined;
        if (this.#hasMemoryFor(first)) return this.#waiting.shift();
        const index = this.#waiting.findIndex(({ memory }) => memory === 0);
        return index < 0 ? undefined : this.#waiting.splice(index, 1)[0];
    }

    // Returns whether there is memory for a call. A call that once ran out of memory waits until
    // others use less.
    #hasMemoryFor({ memory, usedByOthers }) {
        if (memory === 0 || this.#usedMemory === 0) return true;
        const isLessUsed = this.#usedMemory < usedByOthers;
        return isLessUsed && this.#usedMemory + memory <= this.#memory();
    }

    #assign(call, worker) {
        worker.call = call;
        call.usedByOthers = this.#usedMemory;
        this.#usedMemory += call.memory;
        worker.ref?.();
        worker.postMessage(call.message);
    }

    #newWorker() {
        const worker = this.#start(
            (answer) => this.#handleAnswer(worker, answer),
            (error) => this.#handleEnd(worker, error),
        );
        this.#countOfWorkers += 1;
        worker.postMessage({ compiled: this.#compiled });
        return worker;
    }

    #handleAnswer(worker, answer) {
        const { call } = worker;
        worker.call = undefined;
        worker.unref?.();
        this.#idle.push(worker);
        this.#usedMemory -= call.memory;
        if (answer.failure?.reason === OUT_OF_MEMORY) {
            this.#handleLackOfMemory(worker, call, answer);
        } else {
            call.resolve(answer);
            if (call.memory > 0) worker.keepsMemory = true;
            if (call.memory > MOST_KEPT) this.#end(worker);
        }
        this.#distribute();
        this.#endIdleKeepers();
    }

    #endIdleKeepers() {
        const keepers = this.#idle.filter(({ keepsMemory }) => keepsMemory);
        for (const worker of keepers) this.#end(worker);
    }

    // Handles a call that found no memory. If other calls used the memory, or the worker kept some
    // from an earlier call, the call is tried again.
    #handleLackOfMemory(worker, call, answer) {
        const used = Math.max(call.usedByOthers, this.#usedMemory);
        const isAlone = used === 0 && !worker.keepsMemory;
        if (isAlone || call.memory === 0) {
            call.resolve(answer);
            return;
        }
        if (worker.keepsMemory) this.#end(worker);
        call.usedByOthers = used;
        this.#waiting.unshift(call);
    }

    #end(worker) {
        worker.hasEnded = true;
        this.#countOfWorkers -= 1;
        this.#idle = this.#idle.filter((other) => other !== worker);
        worker.terminate();
    }

    // Handles the end of a worker. After an error node calls this twice: for the error and for the
    // end.
    #handleEnd(worker, error) {
        if (worker.hasEnded) return;
        this.#end(worker);
        this.#usedMemory -= worker.call?.memory ?? 0;
        worker.call?.reject(error);
        this.#distribute();
    }
}

// Returns a module of node. Bundlers for browsers must not look for it.
async function importFromNode(name) {
    const builtin = process.getBuiltinModule?.(name);
    return builtin ?? import(/* webpackIgnore: true */ /* @vite-ignore */ name);
}

// Returns how node starts workers, and how much memory they may use: half of what is free.
async function nodeWorkers() {
    const { availableParallelism, freemem } = await importFromNode('node:os');
    const { Worker } = await importFromNode('node:worker_threads');
    // A worker inherits neither the options nor the environment of the process.
    const options = { __proto__: null, eval: true, execArgv: [], env: {} };
    function start(onAnswer, onEnd) {
        const worker = new Worker(HASHER, options);
        worker.on('message', onAnswer);
        worker.on('error', onEnd);
        worker.on('exit', () => onEnd(new Error('the worker that ran this call has ended')));
        return worker;
    }
    function memory() {
        const free = process.availableMemory?.() ?? freemem();
        const limit = process.constrainedMemory?.() || Infinity; // 0 stands for no limit
        return Math.min(free, limit) / 2;
    }
    return { cores: availableParallelism(), start, memory };
}

const NO_WORKER = 'the browser refuses the worker: '
    + 'allow worker-src blob: in the Content-Security-Policy of the page';

function newBrowserWorker(url) {
    try {
        return new Worker(url);
    } catch {
        throw new Error(NO_WORKER);
    }
}

const GIBIBYTE = 1024 * MEBIBYTE;

// Returns how a browser starts workers, and how much memory they may use: a quarter of the
// device's.
async function browserWorkers() {
    const url = URL.createObjectURL(new Blob([HASHER], { type: 'text/javascript' }));
    function start(onAnswer, onEnd) {
        const worker = newBrowserWorker(url);
        worker.onmessage = ({ data }) => onAnswer(data);
        // Some browsers report a refused worker by an event without a message.
        worker.onerror = ({ message }) => onEnd(new Error(message || NO_WORKER));
        return worker;
    }
    // Some browsers don't say how many GiB the device has; 2 are assumed then.
    const memory = () => (navigator.deviceMemory ?? 2) * GIBIBYTE / 4;
    return { cores: navigator.hardwareConcurrency ?? 1, start, memory };
}

// Starts a pool of workers for a compiled module.
async function startPool(compiled) {
    const isNode = Boolean(globalThis.process?.versions?.node);
    const workers = isNode ? await nodeWorkers() : await browserWorkers();
    return new Pool(workers, compiled);
}
