// Runs the program of the package for Node on sessions, all in this process: commands.mjs COMMAND SESSIONS. Each has a folder, words and a
// file as standard input. Writes a list of what each writes to standard output and to standard error, and its status.
import fs from "node:fs";
import { syncBuiltinESMExports } from "node:module";
import { pathToFileURL } from "node:url";

const [node, , command, sessions] = process.argv, { readSync, writeSync } = fs, answers = [];
let input, answer;
fs.readSync = (file, ...rest) => readSync(file || input, ...rest);
fs.writeSync = (file, data) => {
  if (file !== 1 && file !== 2) return writeSync(file, data);
  answer[file - 1] += Buffer.from(data).toString("latin1");
  return data.length;
};
process.exit = (status) => { answer[2] = status; };
syncBuiltinESMExports();
for (const { folder, words, script } of JSON.parse(fs.readFileSync(sessions, "utf8"))) {
  process.chdir(folder);
  process.argv = [node, command, ...words];
  input = fs.openSync(script);
  answers.push(answer = ["", "", -1]);
  await import(`${pathToFileURL(command)}?${answers.length}`);
  fs.closeSync(input);
}
process.stdout.write(JSON.stringify(answers));
