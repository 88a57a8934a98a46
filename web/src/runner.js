// The page's side of the worker: requests are sent to it, and a run is stopped by ending it.

/** What a run that was stopped fails with. */
export class Stopped extends Error {}

/** @param {string} source the worker's script @param {string} packed the module
 * @returns a runner of requests, how all that run are stopped, and whether none runs */
export function runnerOf(source, packed) {
  const address = URL.createObjectURL(new Blob([source], { type: 'text/javascript' }));
  const ends = new Set();
  const start = () => {
    const made = new Worker(address);
    made.postMessage({ packed });
    return made;
  };
  let worker = start();
  /** @type {(it: import('./form.js').Request) => Promise<import('./form.js').Answer>} */
  const run = request => new Promise((done, failed) => {
    const { port1, port2 } = new MessageChannel();
    const end = () => failed(new Stopped());
    ends.add(end);
    port1.onmessage = ({ data: { answer, fault } }) => {
      ends.delete(end);
      port1.close();
      return answer ? done(answer) : failed(new Error(fault));
    };
    worker.postMessage({ request }, [port2]);
  });
  const stop = () => {
    if (ends.size) {
      worker.terminate();
      worker = start();
      ends.forEach(end => end());
      ends.clear();
    }
  };
  return { run, stop, isIdle: () => !ends.size };
}
