// The program, which stands in the page packed and in base64.
async function theProgram() {
  const packed = Uint8Array.from(atob(document.getElementById('program').textContent), c => c.charCodeAt(0));
  const stream = new Blob([packed]).stream().pipeThrough(new DecompressionStream('gzip'));
  return new Uint8Array(await new Response(stream).arrayBuffer());
}
