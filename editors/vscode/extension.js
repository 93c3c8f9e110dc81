// Starts gqlls for GraphQL documents, and starts it anew on the command `gqlls.restart` or when a setting changes.
// Tried only with a stand-in for VS Code (tests/server.js).
const { commands, window, workspace } = require("vscode");
const { Client } = require("./client.js");

// The client of the server; the start that is under way or was the last; the restart that has not started its server
// yet.
let [client, starting, restarting, isActive] = [undefined, Promise.resolve(), undefined, true];

async function stop() {
  const running = client;
  client = undefined;
  await running?.stop();
}

// The words of the server's limits. Without a setting the server has its own. It refuses what is no number from 0 on,
// so that no wrong limit is dropped.
function limitWords(settings) {
  const limits = { "--recursion": settings.get("recursionLimit"), "--tokens": settings.get("tokenLimit") };
  return Object.entries(limits
  ).flatMap(([name, limit]) => (limit === null || limit === undefined ? [] : [name, String(limit)]));
}

async function start() {
  const settings = workspace.getConfiguration("gqlls");
  const command = settings.get("path");
  const mine = (client = new Client(command, limitWords(settings)));
  try {
    await mine.start();
  } catch (error) {
    if (client !== mine) return; // it was stopped while it started
    client = undefined;
    window.showErrorMessage(`gqlls cannot be started as ${command}: ${error.message}`);
  }
}

// Ends the server, and when it is gone starts one with the settings of then. Until that one starts, further calls wait
// for the same: there is never a second.
function restart() {
  restarting ??= (async () => {
    try {
      await Promise.all([stop(), starting]);
    } finally {
      restarting = undefined;
    }
    if (isActive) await (starting = start());
  })();
  return restarting;
}

exports.activate = async (context) => {
  isActive = true;
  context.subscriptions.push(
    commands.registerCommand("gqlls.restart", restart),
    workspace.onDidChangeConfiguration((event) => event.affectsConfiguration("gqlls") && restart()),
  );
  await (starting = start());
};

exports.deactivate = async () => {
  isActive = false;
  await Promise.all([stop(), starting, restarting]);
};
