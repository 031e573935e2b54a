// A file that is opened: its bytes, decompressed if gzip compressed it.

const MOST_UNPACKED = 2 ** 30;
// The first bytes of compressed files (RFC 1952, 2.3.1; RFC 8878, 3.1.1; the formats of xz, bzip2 and lz4), and the
// program that decompresses each.
const COMPRESSIONS = [
  { magic: [0x1f, 0x8b], name: "gzip", tool: "gunzip" },
  { magic: [0x28, 0xb5, 0x2f, 0xfd], name: "zstd", tool: "unzstd" },
  { magic: [0xfd, 0x37, 0x7a, 0x58], name: "xz", tool: "unxz" },
  { magic: [0x42, 0x5a, 0x68], name: "bzip2", tool: "bunzip2" },
  { magic: [0x04, 0x22, 0x4d, 0x18], name: "lz4", tool: "unlz4" },
];

async function gunzip(file) {
  const chunks = [];
  let len = 0;
  for await (const chunk of file.stream().pipeThrough(new DecompressionStream("gzip"))) {
    len += chunk.length;
    if (len > MOST_UNPACKED) throw new Error("it is longer than 1 GiB");
    chunks.push(chunk);
  }
  return new Uint8Array(await new Blob(chunks).arrayBuffer());
}

// Throws an error whose message says why the file has no bytes that are a capture's.
async function readFile(file) {
  const head = new Uint8Array(await file.slice(0, 4).arrayBuffer());
  const compression = COMPRESSIONS.find(({ magic }) => magic.every((byte, at) => head[at] === byte));
  if (!compression) return { bytes: new Uint8Array(await file.arrayBuffer()), isUnpacked: false };
  const { name, tool } = compression;
  const refuse = (why) => {
    throw new Error(`it is compressed with ${name}${why}. Decompress it first, as ${tool} does.`);
  };
  if (name !== "gzip") return refuse("");
  const bytes = await gunzip(file).catch(({ message }) => {
    return refuse(`, and this page could not decompress it: ${message.replace(/\.$/, "")}`);
  });
  return { bytes, isUnpacked: true };
}
