// node code.js: opens f.yaml under the server of $SERVER as VS Code does, edits it, and prints what it would show. There is no VS Code
// without a screen; this has its pipes, its JSON and its capabilities.
const { readFileSync } = require("fs");
const { spawn } = require("child_process");
const { pathToFileURL } = require("url");

const [program, ...words] = process.env.SERVER.split(" ");
const server = spawn(program, words, { stdio: ["pipe", "pipe", "inherit"] });
const uri = pathToFileURL("f.yaml").href;
const severities = ["", "error", "warning", "information", "hint"];
let lines = readFileSync("f.yaml", "utf8").split("\n");
let held = Buffer.alloc(0), count = 0, version = 1, seen = () => {};

function send(message) {
  const body = Buffer.from(JSON.stringify({ jsonrpc: "2.0", ...message }));
  server.stdin.write(`Content-Length: ${body.length}\r\n\r\n`);
  server.stdin.write(body);
}

// The next message for which the test holds.
function message(test) {
  return new Promise((done) => { seen = (one) => test(one) && done(one); });
}

server.stdout.on("data", (data) => {
  held = Buffer.concat([held, data]);
  for (;;) {
    const end = held.indexOf("\r\n\r\n");
    const length = end < 0 ? 0 : +/content-length: *(\d+)/i.exec(held.subarray(0, end).toString())[1];
    if (end < 0 || held.length < end + 4 + length) return;
    const one = JSON.parse(held.subarray(end + 4, end + 4 + length).toString());
    held = held.subarray(end + 4 + length);
    count += one.method === "textDocument/publishDiagnostics";
    seen(one);
  }
});

function change(start, end, text) {
  version += 1;
  const range = { start: { line: start[0], character: start[1] }, end: { line: end[0], character: end[1] } };
  const contentChanges = [{ range, rangeLength: 0, text }];
  send({ method: "textDocument/didChange", params: { textDocument: { uri, version }, contentChanges } });
}

// Does something, waits for the publication of the text as it is then, and prints what is shown.
async function step(name, act) {
  const shown = message((one) => one.method === "textDocument/publishDiagnostics" && (one.params.version ?? version) === version);
  act();
  const { diagnostics } = (await shown).params;
  console.log(name);
  for (const { range: { start, end }, severity, code, codeDescription, message: text } of diagnostics) {
    const word = lines[start.line].slice(start.character, end.character);
    const link = codeDescription ? ` ${codeDescription.href}` : "";
    console.log(`  ${start.line}:${start.character}-${end.line}:${end.character} ${severities[severity]} ${code}: ${text} '${word}'${link}`);
  }
}

async function main() {
  const capabilities = {
    general: { positionEncodings: ["utf-16"] },
    textDocument: { publishDiagnostics: { relatedInformation: true, codeDescriptionSupport: true, dataSupport: true } },
  };
  const answer = message((one) => one.id === 0);
  send({ id: 0, method: "initialize", params: { processId: process.pid, rootUri: null, capabilities, trace: "off" } });
  console.log(JSON.stringify((await answer).result.capabilities));
  send({ method: "initialized", params: {} });
  send({ method: "$/setTrace", params: { value: "off" } });
  await step("opened", () => {
    const textDocument = { uri, languageId: "yaml", version, text: lines.join("\n") };
    send({ method: "textDocument/didOpen", params: { textDocument } });
  });
  // Unit by unit and without waiting, so that the two halves of a surrogate pair come by themselves.
  await step("typed", () => {
    lines[1] += " \u{1F600} é ";
    for (let i = 4; i < lines[1].length; i += 1) change([1, i], [1, i], lines[1][i]);
  });
  await step("two lines", () => {
    const old = lines.splice(1, 2, "x:  yes", '\u{1F600}: "y');
    change([1, 0], [2, old[1].length], lines.slice(1, 3).join("\n"));
    lines.old = old;
  });
  await step("undone", () => {
    change([1, 0], [2, lines[2].length], lines.old.join("\n"));
    lines.splice(1, 2, ...lines.old);
  });
  // What no editor sends: a range that ends before its start. The text is followed again once it is sent whole.
  await step("lost", () => change([1, 1], [1, 0], "x"));
  await step("whole", () => {
    version += 1;
    const contentChanges = [{ text: lines.join("\n") }];
    send({ method: "textDocument/didChange", params: { textDocument: { uri, version }, contentChanges } });
  });
  await step("configured", () => {
    const zutkrad = { config: "rules: {colons: enable, trailing-spaces: enable}", maxProblems: 1 };
    send({ method: "workspace/didChangeConfiguration", params: { settings: { zutkrad } } });
  });
  await step("closed", () => send({ method: "textDocument/didClose", params: { textDocument: { uri } } }));
  const stopped = message((one) => one.id === 1);
  send({ id: 1, method: "shutdown" });
  await stopped;
  server.on("exit", (status) => console.log(`status ${status}, publications ${count}`));
  send({ method: "exit" });
}

main();
