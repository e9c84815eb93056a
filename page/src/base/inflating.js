// Unpacks bytes: `format` is `gzip`, or `deflate` with its short heading. Safari can't read a blob in the worker of a page from a disk.

export async function inflated(bytes, format) {
  const { readable, writable } = new DecompressionStream(format);
  const writer = writable.getWriter();
  const written = writer.write(bytes).then(() => writer.close());
  const [read] = await Promise.all([new Response(readable).arrayBuffer(), written]);
  return new Uint8Array(read);
}
