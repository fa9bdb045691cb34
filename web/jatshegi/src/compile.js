/** The module at an address, compiled while its bytes come where the server says what it is. */
export const compiled = async (url) => {
  const found = await fetch(url);
  if (!found.ok) throw new Error(`${url}: ${found.status} ${found.statusText}`);
  const isNamed = found.headers.get('Content-Type') === 'application/wasm';
  return isNamed ? WebAssembly.compileStreaming(found) : WebAssembly.compile(await found.arrayBuffer());
};
