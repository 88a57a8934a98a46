// Runs requests apart from the page, one after another. The first message has the module, packed by
// gzip and in base64; each later one a request, with a port for its answer.
import { call } from './form.js';

/** @type {Promise<WebAssembly.Module>} */
let module;

/** @param {string} packed @returns the module (TypeScript 4.8 has no type for what unpacks it) */
async function compiled(packed) {
  const bytes = Uint8Array.from(atob(packed), sign => sign.charCodeAt(0));
  const unpack = new (/** @type {any} */ (self).DecompressionStream)('gzip');
  const unpacked = new Blob([bytes]).stream().pipeThrough(unpack);
  return WebAssembly.compile(await new Response(unpacked).arrayBuffer());
}

self.onmessage = async ({ data: { packed, request }, ports: [port] }) => {
  if (packed) {
    module = compiled(packed);
    return;
  }
  try {
    const { exports } = await WebAssembly.instantiate(await module, {});
    port.postMessage({ answer: call(/** @type {any} */ (exports), request) });
  } catch (fault) {
    port.postMessage({ fault: String(fault) });
  }
};
