// Lets 200 clients log in to a server at once, every fourth with a wrong password, while another
// client asks for its health. Reports whether the answers were right, and during which share of the
// time the server's event loop was busy.
import http from 'node:http';
import { text } from 'node:stream/consumers';
import { setTimeout } from 'node:timers/promises';

const CLIENTS = 200;
const server = {
    agent: new http.Agent(),
    host: '127.0.0.1',
    port: process.argv[2],
    method: 'POST',
};

function ask(path, body = '') {
    return new Promise((resolve, reject) => {
        const request = http.request({ ...server, path }, (response) => resolve(text(response)));
        request.on('error', reject);
        request.end(body);
    });
}

const healths = [];
let isDone = false;
async function askForHealth() {
    while (!isDone) {
        healths.push(await ask('/health'));
        await setTimeout(5);
    }
}

const asked = askForHealth();
const isFourth = (number) => number % 4 === 0;
const expected = Array.from({ length: CLIENTS }, (_, number) => (isFourth(number) ? 'out' : 'in'));
const logins = expected.map((answer) => ask('/login', answer === 'in' ? 'correct horse' : 'wrong'));
const answers = await Promise.all(logins);
isDone = true;
await asked;
console.log(JSON.stringify({
    right: answers.every((answer, number) => answer === expected[number]),
    well: healths.length > 1 && healths.every((health) => health === 'well'),
    busy: Number(await ask('/busy')),
}));
