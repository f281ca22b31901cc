// The debugger l6db for Node: a session at a terminal, around the engine of engine.js.
//
// Over pipes, with --batch, --echo, --prompt, --help or --version, with L6DB_PLAIN set or at a dumb terminal, the module
// is run as it is: it reads standard input line by line, as the native program does. At a terminal another process runs
// the module over pipes, and this one gives editing, a history of lines, completion, and a Ctrl-C that stops a command and keeps the
// session: a run follows from its deck, its input and its options, so a new engine is led to the same state by the
// commands that `save` answers.
//
// `bundle` puts the commands (terminal/words) after it.

const NAME = "l6db";
const PATIENCE = 500; // milliseconds until it is shown that a command goes on
const PROMPT = "(l6db) ";
const WRONG = "Not a command: help lists them\n";
const VALUED = new Set(["--input", "-x", "--prompt", "--store", "--steps", "--output"]); // options that a value follows
const MARK = /^\$(?:INPUT|COMMANDS)/im; // what follows are no cards
const LABEL = /^[A-Z][A-Z0-9]{0,5}(?![A-Z0-9])/gim;
const PLAIN = /^(?:--batch|--echo|--prompt(?:=.*)?|-h|--help|-V|--version)$/;

async function main() {
  const words = words_of_command_line();
  if (!words) return refused("l6db: a word is not UTF-8\n", WRONG_WORDS);
  const isTyped = process.stdin.isTTY && process.stdout.isTTY && !process.env.L6DB_PLAIN && process.env.TERM !== "dumb";
  if (isTyped && words.length && !words.some((word) => PLAIN.test(word))) return new Front(words).play();
  return engine(words);
}

// An engine in another process, asked one line at a time, as terminal/engine.py does it. It repeats each line before
// its answer. To each line a second one is added, a mark that is drawn for each engine, so that nothing which a deck
// prints can be taken for it. What comes is the line, its answer, the mark, and that the mark is no command.
class Engine {
  constructor(spawn, random, words) {
    this.mark = `mark-${random(8).toString("hex")}\n`;
    this.end = this.mark + WRONG;
    this.shown = "";
    this.errors = "";
    this.asked = null; // what was asked, while no answer has come
    this.status = null;
    this.process = spawn(process.execPath, [process.argv[1], ...words, "--echo"],
      {stdio: ["pipe", "pipe", "pipe"], detached: process.platform !== "win32", env: {...process.env, L6DB_PLAIN: "1"}});
    this.process.stdout.setEncoding("utf8").on("data", (text) => this.take(text));
    this.process.stderr.setEncoding("utf8").on("data", (text) => { this.errors += text; });
    this.process.stdin.on("error", () => {});
    this.process.on("close", (status) => this.close(status ?? DEVICE_FAILED));
  }

  take(text) {
    this.shown += text;
    if (this.asked && this.shown.endsWith(this.end))
      this.answer(this.shown.slice(this.asked.given.length, -this.end.length));
  }

  close(status) {
    this.status = status;
    if (this.asked) this.answer(null);
  }

  answer(text) {
    const {settle} = this.asked;
    [this.asked, this.shown] = [null, ""];
    settle(text);
  }

  // The answer to a line that has words, or what is shown at first where there is none; null once the engine has ended.
  ask(line) {
    return new Promise((settle) => {
      if (this.status !== null) return settle(null);
      this.asked = {given: line === undefined ? "" : `${line}\n`, settle};
      this.process.stdin.write(this.asked.given + this.mark);
    });
  }

  stop() {
    this.asked = null;
    this.process.removeAllListeners("close");
    this.process.kill("SIGKILL");
  }
}

// A session at a terminal.
class Front {
  constructor(words) {
    this.words = words;
    this.busy = null; // what is asked of the engine, where something is
  }

  async play() {
    const [{spawn}, {randomBytes}, files, paths, {homedir}, repl] = await Promise.all(
      ["child_process", "crypto", "fs", "path", "os", "repl"].map((name) => import(`node:${name}`)));
    this.files = files;
    this.start = () => new Engine(spawn, randomBytes, this.words);
    this.engine = this.start();
    const first = await this.engine.ask();
    process.stdout.write(first ?? "");
    if (first === null) return refused(this.engine.errors, this.engine.status);
    this.labels = labels_of(files, this.words);
    return new Promise((ended) => {
      this.repl = repl.start({
        prompt: PROMPT, ignoreUndefined: true, preview: false, terminal: true, useGlobal: false,
        writer: (text) => text.replace(/\n$/, ""),
        completer: (line) => this.completions(line),
        eval: (line, _context, _file, settle) => this.obey(line.trimEnd(), settle),
      });
      for (const name of Object.keys(this.repl.commands)) delete this.repl.commands[name];
      this.repl.removeAllListeners("SIGINT");
      this.repl.on("SIGINT", () => this.interrupt());
      this.repl.on("exit", () => { this.engine.stop(); ended(this.status ?? 0); });
      const folder = history_folder(paths, homedir());
      try {
        files.mkdirSync(folder, {recursive: true});
        this.repl.setupHistory(paths.join(folder, "l6db_history"), () => {});
      } catch {
        // (without a history of lines, then)
      }
    });
  }

  // Gives a line to the engine, and shows the answer. A line without words repeats the one before.
  async obey(line, settle) {
    this.last = line.trim() ? line : this.last;
    if (!this.last) return settle(null);
    if (/^\s*(?:quit|q|exit)\s*$/i.test(this.last)) return this.repl.close();
    const before = await this.engine.ask("save");
    const busy = {settle, before};
    this.busy = busy;
    const begun = performance.now();
    busy.ticks = setInterval(() => {
      const took = performance.now() - begun;
      if (took < PATIENCE) return;
      busy.isShown = true;
      process.stderr.write(`\r\x1b[2K${(took / 1000).toFixed(1)} s; Ctrl-C stops the command, not the session`);
    }, 100);
    const text = await this.engine.ask(this.last);
    if (this.busy !== busy) return; // (it was stopped meanwhile)
    this.rest(busy);
    if (text !== null) return settle(null, text || undefined);
    process.stderr.write(this.engine.errors);
    this.status = this.engine.status;
    this.repl.close();
  }

  // No command is under way any longer.
  rest(busy) {
    clearInterval(busy.ticks);
    if (busy.isShown) process.stderr.write("\r\x1b[2K");
    this.busy = null;
  }

  // Ctrl-C: at the prompt it drops the line; during a command it stops that, and comes back to where one was.
  async interrupt() {
    const {busy} = this;
    if (!busy) {
      process.stdout.write("^C\n");
      this.repl.clearBufferedCommand();
      this.repl.write(null, {ctrl: true, name: "u"});
      return this.repl.displayPrompt();
    }
    this.rest(busy);
    this.engine.stop();
    this.engine = this.start();
    await this.engine.ask();
    // (the commands of -x and of the job may have set something)
    await this.engine.ask("delete");
    while ((await this.engine.ask("undisplay 1"))?.includes("taken off"));
    for (const line of (busy.before ?? "").split("\n").filter(Boolean)) await this.engine.ask(line);
    busy.settle(null, `Stopped: the session is where it was before\n${await this.engine.ask("stepi 0") ?? ""}`);
  }

  // What may stand where a line ends: a command first, and then a label.
  completions(line) {
    const [, before, word] = /^(.*?)(\S*)$/.exec(line);
    const known = before.trim() ? this.labels : COMMANDS.split(" ");
    return [known.filter((it) => it.toLowerCase().startsWith(word.toLowerCase())), word];
  }
}

// The labels of the deck that the words of the command line name.
function labels_of(files, words) {
  const deck = deck_in(words);
  try {
    const [cards] = files.readFileSync(deck ?? "", "latin1").split(MARK);
    return [...new Set(Array.from(cards.matchAll(LABEL), ([label]) => label.toUpperCase()))].sort();
  } catch {
    return []; // (it is no file)
  }
}

// The file of the deck among the words; the values of options are none.
function deck_in(words) {
  let isValue = false;
  return words.find((word) => {
    const isDeck = !isValue && !word.startsWith("-");
    isValue = !isValue && VALUED.has(word);
    return isDeck;
  });
}

// Where the lines that were typed are kept.
function history_folder(paths, home) {
  const state = process.env.XDG_STATE_HOME ?? "";
  return paths.join(paths.isAbsolute(state) ? state : paths.join(home, ".local", "state"), "l6");
}
