// Starts `outline lsp` and hands it the outlines that are open.
const { workspace } = require("vscode");
const { LanguageClient } = require("vscode-languageclient/node");

let client;

exports.activate = () => {
  const command = workspace.getConfiguration("outline").get("command");
  const server = { command, args: ["lsp"] };
  const documents = { documentSelector: [{ language: "outline" }] };
  client = new LanguageClient("outline", "Proof outlines", server, documents);
  return client.start();
};

exports.deactivate = () => client && client.stop();
