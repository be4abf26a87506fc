// A server with logins at /login and a health check at /health. /busy reports during which share of
// the time since the first request its event loop was busy.
import http from 'node:http';
import { performance } from 'node:perf_hooks';
import { text } from 'node:stream/consumers';
import { LoginQueue, Policy } from 'mkpasswd';

const policy = new Policy({ rounds: 20000 });
const queue = new LoginQueue({ failureTime: 1000, policy });
const stored = policy.hash('correct horse');
let start;
const answers = {
    '/login': async (password) => ((await queue.login(password, stored)).matches ? 'in' : 'out'),
    '/health': async () => 'well',
    '/busy': async () => String(performance.eventLoopUtilization(start).utilization),
};
const server = http.createServer(async (request, response) => {
    start ??= performance.eventLoopUtilization();
    response.end(await answers[request.url](await text(request)));
});
server.listen(0, '127.0.0.1', () => console.log(server.address().port));
