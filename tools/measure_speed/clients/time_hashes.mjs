// Checks a password and its hash COUNT times with our module for node. Prints whether they match
// each time, and how much processor time that took, in microseconds:
//
//     time_hashes.mjs MODULE PASSWORD HASH WARM_UPS COUNT
//
// Before that it checks them WARM_UPS times, so that the engine has compiled the module.
const NO_LIMIT = 2 ** 42; // a budget that no hash here reaches
const [path, password, hash, warmUps, count] = process.argv.slice(2);
const { Policy } = await import(path);
const { verify } = new Policy({ budget: NO_LIMIT });

function checkTimes(times) {
    let allMatch = true;
    for (let number = 0; number < times; number++) allMatch = verify(password, hash) && allMatch;
    return allMatch;
}

checkTimes(Number(warmUps));
const begun = process.cpuUsage();
const allMatch = checkTimes(Number(count));
const { user, system } = process.cpuUsage(begun);
console.log(`${allMatch} ${user + system}`);
