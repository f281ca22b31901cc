// The program l6ed for Node, which editors start, around the engine of engine.js: it reads standard input message by message,
// and answers each before it reads the next one, as the native program does.

const NAME = "l6ed";

async function main() {
  const words = words_of_command_line();
  return words ? engine(words) : refused("l6ed: a word is not UTF-8\n", WRONG_WORDS);
}
