// The engine of the programs l6db and l6ed for Node: the module of the proved program, with the files of this process.
//
// `bundle` puts it behind the script that a program begins with (session.js, server.js), which has the program's NAME, and the
// module after it, in gzip and base 64. The result runs as a module (l6db.mjs) and as a script without an ending (bin/l6db), so it
// imports by calls.

const MOST_WORDS = 15;           // that the module takes; no right command line has so many
const MOST_MEMORY = 0xffff_0000; // bytes that the module can address
const PAUSE = 10;                // milliseconds until a device that is busy is asked again

const DEVICE_FAILED = 5; // exit statuses
const WRONG_WORDS = 64;

// The numbers that the program knows errors by, which are those of Linux, and what it asks of `open`.
const ERRORS = {EPERM: 1, ENOENT: 2, EINTR: 4, EIO: 5, EBADF: 9, ENOMEM: 12, EACCES: 13, EEXIST: 17, ENOTDIR: 20, EISDIR: 21,
  ENOSPC: 28, EROFS: 30, EPIPE: 32};
const [WRITES, CREATES, ONLY_NEW, EMPTIES, APPENDS] = [0o3, 0o100, 0o200, 0o1000, 0o2000];

// The words of the command line, as many as the module takes; null if one of them was not UTF-8.
function words_of_command_line() {
  const words = process.argv.slice(2, 2 + MOST_WORDS);
  return words.some((word) => /[\ufffd\ud800-\udfff]/u.test(word)) ? null : words;
}

// Says why the program ends; answers its exit status.
function refused(why, status) {
  process.stderr.write(why);
  return status;
}

// Runs the module to its end; answers the exit status.
async function engine(words) {
  const files = await import("node:fs");
  const {gunzipSync} = await import("node:zlib");
  const {isatty} = await import("node:tty");
  const module = new WebAssembly.Module(gunzipSync(Buffer.from(MODULE, "base64")));
  let host;
  const memory = (at, count) => new Uint8Array(host.memory.buffer, at >>> 0, count >>> 0);
  const imports = {
    read: (file, into, room) => tried(() => files.readSync(file, memory(into, room))),
    write: (file, from, count) => tried(() => files.writeSync(file, memory(from, count))),
    open: (path, bytes, flags) =>
      tried(() => files.openSync(Buffer.from(memory(path, bytes)).toString(), opening(files.constants, flags))),
    close: (file) => tried(() => files.closeSync(file) ?? 0),
    isatty: (file) => Number(isatty(file)),
  };
  try {
    host = new WebAssembly.Instance(module, {host: imports}).exports;
    for (const word of [NAME, ...words]) {
      const bytes = Buffer.from(word);
      const address = host.host_word(bytes.length);
      if (address === 0) throw new RangeError("there is no memory for the words");
      memory(address, bytes.length).set(bytes);
    }
    host.host_limit(MOST_MEMORY);
    return host.host_run();
  } catch (error) {
    if (!(error instanceof RangeError)) throw error;
    return refused(`${NAME}: out of memory\n`, DEVICE_FAILED);
  }
}

// What a call to the system answers, 0 at an end; below zero where it fails. A busy device is asked again.
function tried(call) {
  for (;;) {
    try {
      return call();
    } catch (error) {
      if (error.code === "EOF") return 0; // (as a console of Windows ends)
      if (error.code !== "EAGAIN") return -(ERRORS[error.code] ?? ERRORS.EIO);
      Atomics.wait(new Int32Array(new SharedArrayBuffer(4)), 0, 0, PAUSE);
    }
  }
}

// How a file is opened on this system, by the numbers that the program has for it.
function opening(system, flags) {
  const access = [system.O_RDONLY, system.O_WRONLY, system.O_RDWR][flags & WRITES] ?? system.O_RDONLY;
  return access | (flags & CREATES && system.O_CREAT) | (flags & ONLY_NEW && system.O_EXCL)
    | (flags & EMPTIES && system.O_TRUNC) | (flags & APPENDS && system.O_APPEND);
}
