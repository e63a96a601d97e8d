// The extension of VS Code over a stub of `vscode`: node tests/clients/extension.js PROGRAM. The status is 1 where an answer is another one.
const assert = require('assert');
const Module = require('module');
const path = require('path');

const told = {};
const providers = {};
const events = {};
const text = { value: '.ORIG x3000\nLD R1,COUTN\nST R1,COUNT\nHALT\nCOUNT .FILL 5\n' };
const document = { languageId: 'lc3lab', uri: { toString: () => 'file:///w/a.asm' }, version: 1, getText: () => text.value };

class Made { constructor(...given) { this.given = given; } }
class Range { constructor(a, b, c, d) { this.start = { line: a, character: b }; this.end = { line: c, character: d }; } }
class Diagnostic { constructor(range, message, severity) { Object.assign(this, { range, message, severity }); } }
class CodeAction { constructor(title) { this.title = title; } }
class WorkspaceEdit { constructor() { this.edits = []; } replace(uri, range, newText) { this.edits.push([range, newText]); } }

const event = (name) => (listener) => { events[name] = listener; };
const register = (name) => (_language, provider) => { providers[name] = provider; };
const settings = { path: path.resolve(process.argv[2]), addresses: true };
const vscode = {
  Range, Diagnostic, CodeAction, WorkspaceEdit, Location: Made, Hover: Made, MarkdownString: Made, DocumentSymbol: Made,
  CompletionItem: Made, SnippetString: Made, InlayHint: Made, Position: Made, CodeActionKind: { QuickFix: 'quickfix' },
  Uri: { parse: (uri) => ({ toString: () => uri }) },
  window: { showErrorMessage: (message) => { throw new Error(message); } },
  workspace: {
    getConfiguration: () => ({ get: (name, usual) => (name in settings ? settings[name] : usual) }),
    textDocuments: [document],
    onDidOpenTextDocument: event('open'), onDidChangeTextDocument: event('change'), onDidCloseTextDocument: event('close'),
  },
  languages: {
    createDiagnosticCollection: () => ({ set: (_uri, diagnostics) => { told.diagnostics = diagnostics; } }),
    registerHoverProvider: register('hover'), registerDefinitionProvider: register('definition'),
    registerReferenceProvider: register('references'), registerRenameProvider: register('rename'),
    registerDocumentSymbolProvider: register('symbols'), registerCompletionItemProvider: register('completion'),
    registerCodeActionsProvider: register('actions'), registerInlayHintsProvider: register('hints'),
  },
};

const load = Module._load;
Module._load = (name, ...rest) => (name === 'vscode' ? vscode : load(name, ...rest));
const extension = require('../../editors/vscode/extension.js');

async function diagnostics() {
  for (let k = 0; k < 3000 && !told.diagnostics; k += 1) await new Promise((go) => { setTimeout(go, 20); });
  const found = told.diagnostics;
  told.diagnostics = null;
  return found;
}

async function main() {
  extension.activate({ subscriptions: [] });
  const [found] = await diagnostics();
  assert.deepStrictEqual([found.range.start, found.severity, found.code, found.message],
    [{ line: 1, character: 6 }, 0, 'Undefined', 'no line defines the label COUTN; did you mean COUNT?']);
  const at = { line: 1, character: 8 };
  const [action] = await providers.actions.provideCodeActions(document, { start: at, end: at });
  assert.strictEqual(action.title, 'Change COUTN to COUNT');
  assert.strictEqual(action.edit.edits[0][1], 'COUNT');

  text.value = text.value.replace('COUTN', 'COUNT');
  document.version = 2;
  events.change({ document });
  assert.strictEqual((await diagnostics()).length, 0);
  const hover = await providers.hover.provideHover(document, at);
  assert.strictEqual(hover.given[0].given[0], '```lc3lab\nCOUNT = x3003\nline 5: COUNT .FILL 5\n```');
  const definition = await providers.definition.provideDefinition(document, at);
  assert.deepStrictEqual(definition.given[1].start, { line: 4, character: 0 });
  assert.strictEqual((await providers.references.provideReferences(document, at, { includeDeclaration: true })).length, 3);
  assert.strictEqual((await providers.rename.prepareRename(document, at)).placeholder, 'COUNT');
  assert.strictEqual((await providers.rename.provideRenameEdits(document, at, 'total')).edits.length, 3);
  await assert.rejects(providers.rename.provideRenameEdits(document, at, 'R3'), /R3 is no label/);
  const symbols = await providers.symbols.provideDocumentSymbols(document);
  assert.deepStrictEqual(symbols.map((it) => it.given.slice(0, 3)), [['COUNT', 'x3003', 12]]);
  const labels = await providers.completion.provideCompletionItems(document, at);
  assert.deepStrictEqual(labels.map((it) => [it.given[0], it.insertText]), [['COUNT', 'COUNT']]);
  const begun = await providers.completion.provideCompletionItems(document, { line: 3, character: 2 });
  const send = begun.find((it) => it.given[0] === 'sem_wait with its registers');
  assert.strictEqual(send.insertText.given[0], 'LD R0,${1:SLOT}\nTRAP x53');
  const hints = await providers.hints.provideInlayHints(document, { start: { line: 0, character: 0 }, end: { line: 9, character: 0 } });
  assert.deepStrictEqual(hints.map((it) => it.given[1]), ['x3000', 'x3001', 'x3002', 'x3003']);
  events.close(document);
  assert.strictEqual((await diagnostics()).length, 0);
  await extension.deactivate();
}

main().catch((error) => {
  console.log(error);
  process.exit(1);
});
