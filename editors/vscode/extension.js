// A client of `lc3lab lsp` for VS Code, without another package: frames, documents, and a provider for each question.
const vscode = require('vscode');
const { spawn } = require('child_process');

const LANGUAGE = 'lc3lab';
const HEADERS_END = '\r\n\r\n';

// The server, as a process that is asked and tells.
class Server {
  constructor(command, options, listen) {
    this.number = 0;
    this.waiting = new Map();
    this.received = Buffer.alloc(0);
    this.listen = listen;
    this.child = spawn(command, ['lsp'], { stdio: ['pipe', 'pipe', 'ignore'] });
    this.child.on('error', () => {
      vscode.window.showErrorMessage(`lc3lab: ${command} can't be started; the setting lc3lab.path names the program`);
      this.end();
    });
    this.child.on('exit', () => this.end());
    this.child.stdin.on('error', () => {});
    this.child.stdout.on('data', (data) => this.receive(data));
    this.ready = this.ask('initialize', {
      processId: process.pid,
      rootUri: null,
      initializationOptions: options,
      capabilities: {
        textDocument: {
          hover: { contentFormat: ['markdown'] },
          documentSymbol: { hierarchicalDocumentSymbolSupport: true },
          completion: { completionItem: { snippetSupport: true } },
        },
      },
    });
    this.ready.catch(() => {});
  }

  send(message) {
    const body = Buffer.from(JSON.stringify({ jsonrpc: '2.0', ...message }));
    this.child.stdin.write(`Content-Length: ${body.length}${HEADERS_END}`);
    this.child.stdin.write(body);
  }

  // The answer to a request; an error of the server rejects it.
  ask(method, params) {
    this.number += 1;
    const id = this.number;
    return new Promise((resolve, reject) => {
      this.waiting.set(id, { resolve, reject });
      this.send({ id, method, params });
    });
  }

  receive(data) {
    this.received = Buffer.concat([this.received, data]);
    for (let message = this.taken(); message; message = this.taken()) {
      const one = this.waiting.get(message.id);
      if (!one) {
        this.listen(message);
        continue;
      }
      this.waiting.delete(message.id);
      if (message.error) one.reject(new Error(message.error.message));
      else one.resolve(message.result);
    }
  }

  // The next message of those that were received, if it is whole.
  taken() {
    const end = this.received.indexOf(HEADERS_END);
    if (end < 0) return null;
    const start = end + HEADERS_END.length;
    const length = Number(/Content-Length: (\d+)/i.exec(this.received.toString('latin1', 0, end))[1]);
    if (this.received.length < start + length) return null;
    const message = JSON.parse(this.received.toString('utf8', start, start + length));
    this.received = this.received.subarray(start + length);
    return message;
  }

  // Nothing is answered any more.
  end() {
    for (const one of this.waiting.values()) one.reject(new Error('lc3lab has ended'));
    this.waiting.clear();
  }
}

const range = (it) => new vscode.Range(it.start.line, it.start.character, it.end.line, it.end.character);
const location = (it) => new vscode.Location(vscode.Uri.parse(it.uri), range(it.range));
const named = (document) => ({ uri: document.uri.toString() });
const place = (document, position) => ({
  textDocument: named(document),
  position: { line: position.line, character: position.character },
});

function diagnostic(it) {
  const one = new vscode.Diagnostic(range(it.range), it.message, it.severity - 1);
  return Object.assign(one, { source: it.source, code: it.code, tags: it.tags });
}

function edit(changes) {
  const one = new vscode.WorkspaceEdit();
  for (const [uri, edits] of Object.entries(changes)) {
    for (const it of edits) one.replace(vscode.Uri.parse(uri), range(it.range), it.newText);
  }
  return one;
}

function completion(it) {
  const one = new vscode.CompletionItem(it.label, it.kind - 1);
  const { newText } = it.textEdit;
  const insertText = it.insertTextFormat === 2 ? new vscode.SnippetString(newText) : newText;
  return Object.assign(one, { detail: it.detail, filterText: it.filterText, insertText, range: range(it.textEdit.range) });
}

function action(it) {
  const one = new vscode.CodeAction(it.title, vscode.CodeActionKind.QuickFix);
  return Object.assign(one, { edit: edit(it.edit.changes), isPreferred: true, diagnostics: it.diagnostics.map(diagnostic) });
}

const symbol = (it) => new vscode.DocumentSymbol(it.name, it.detail || '', it.kind - 1, range(it.range), range(it.selectionRange));

// The providers of what an editor asks.
function providers(server, addresses) {
  const ask = (method, params) => server.ask(`textDocument/${method}`, params);
  const { languages } = vscode;
  const list = [
    languages.registerHoverProvider(LANGUAGE, {
      provideHover: async (document, position) => {
        const it = await ask('hover', place(document, position));
        return it && new vscode.Hover(new vscode.MarkdownString(it.contents.value), range(it.range));
      },
    }),
    languages.registerDefinitionProvider(LANGUAGE, {
      provideDefinition: async (document, position) => {
        const it = await ask('definition', place(document, position));
        return it && location(it);
      },
    }),
    languages.registerReferenceProvider(LANGUAGE, {
      provideReferences: async (document, position, context) => {
        const { includeDeclaration } = context;
        return (await ask('references', { ...place(document, position), context: { includeDeclaration } })).map(location);
      },
    }),
    languages.registerRenameProvider(LANGUAGE, {
      prepareRename: async (document, position) => {
        const it = await ask('prepareRename', place(document, position));
        if (!it) throw new Error('no label stands here');
        return { range: range(it.range), placeholder: it.placeholder };
      },
      provideRenameEdits: async (document, position, newName) =>
        edit((await ask('rename', { ...place(document, position), newName })).changes),
    }),
    languages.registerDocumentSymbolProvider(LANGUAGE, {
      provideDocumentSymbols: async (document) => (await ask('documentSymbol', { textDocument: named(document) })).map(symbol),
    }),
    languages.registerCompletionItemProvider(
      LANGUAGE,
      { provideCompletionItems: async (document, position) => (await ask('completion', place(document, position))).items.map(completion) },
      '.',
    ),
    languages.registerCodeActionsProvider(LANGUAGE, {
      provideCodeActions: async (document, { start, end }) => {
        const params = { textDocument: named(document), range: { start, end }, context: { diagnostics: [] } };
        return (await ask('codeAction', params)).map(action);
      },
    }),
  ];
  if (addresses) {
    list.push(languages.registerInlayHintsProvider(LANGUAGE, {
      provideInlayHints: async (document, { start, end }) => {
        const hints = await ask('inlayHint', { textDocument: named(document), range: { start, end } });
        return hints.map((it) => {
          const hint = new vscode.InlayHint(new vscode.Position(it.position.line, it.position.character), it.label);
          return Object.assign(hint, { paddingRight: it.paddingRight });
        });
      },
    }));
  }
  return list;
}

// What tells the server which documents are open.
function followers(server) {
  const isSource = (document) => document.languageId === LANGUAGE;
  const tell = (method, params) => server.ready.then(() => server.send({ method: `textDocument/${method}`, params }), () => {});
  const open = (document) => {
    if (!isSource(document)) return;
    const { version } = document;
    tell('didOpen', { textDocument: { ...named(document), languageId: LANGUAGE, version, text: document.getText() } });
  };
  const { workspace } = vscode;
  workspace.textDocuments.forEach(open);
  return [
    workspace.onDidOpenTextDocument(open),
    workspace.onDidChangeTextDocument(({ document }) => {
      if (!isSource(document)) return;
      const { version } = document;
      tell('didChange', { textDocument: { ...named(document), version }, contentChanges: [{ text: document.getText() }] });
    }),
    workspace.onDidCloseTextDocument((document) => {
      if (isSource(document)) tell('didClose', { textDocument: named(document) });
    }),
  ];
}

let server;

function activate(context) {
  const settings = vscode.workspace.getConfiguration(LANGUAGE);
  const found = vscode.languages.createDiagnosticCollection(LANGUAGE);
  const addresses = settings.get('addresses', false);
  const options = { profile: settings.get('profile', 'a'), allow: settings.get('allow', []), addresses };
  server = new Server(settings.get('path', 'lc3lab'), options, (message) => {
    if (message.method !== 'textDocument/publishDiagnostics') return;
    const { uri, diagnostics } = message.params;
    found.set(vscode.Uri.parse(uri), diagnostics.map(diagnostic));
  });
  context.subscriptions.push(found, ...followers(server), ...providers(server, addresses));
}

function deactivate() {
  return server.ask('shutdown').then(() => server.send({ method: 'exit' }), () => {});
}

module.exports = { activate, deactivate };
