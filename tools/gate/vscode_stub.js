// Runs the extension for VS Code without the editor: what it calls of the editor is here, as far as
// it is called.
//
// node vscode_stub.js EXTENSION SERVER reads a JSON object from the standard input: `uri`, `text`,
// and `steps`, a list of [name, words ...]. It opens the text and makes the steps: `change` with a
// range and a text, `wait` for the diagnostics of that many changes, and the names of providers. It
// writes a list with what each step gave.
"use strict";
const Module = require("module");
const path = require("path");

class Position {
  constructor(line, character) {
    Object.assign(this, { line, character });
  }
}

class Range {
  constructor(start, end) {
    Object.assign(this, { start, end });
  }

  // as the editor writes it, which is not what the protocol wants
  toJSON() {
    return [this.start, this.end];
  }
}

// A class of the editor that keeps its arguments by these names.
function keeping(...names) {
  return class {
    constructor(...values) {
      names.forEach((name, number) => {
        this[name] = values[number];
      });
    }
  };
}

class WorkspaceEdit {
  constructor() {
    this.changes = {};
  }

  set(uri, edits) {
    this.changes[uri.toString()] = edits;
  }
}

class Uri {
  constructor(text) {
    this.text = text;
  }

  static parse(text) {
    return new Uri(text);
  }

  toString() {
    return this.text;
  }

  toJSON() {
    return this.text;
  }
}

const told = [];
const shown = [];
const registered = {};
const listeners = {};
const documents = [];

function register(name) {
  return (selector, provider) => {
    registered[name] = provider;
    return { dispose() {} };
  };
}

function listen(name) {
  return (listener) => {
    listeners[name] = listener;
    return { dispose() {} };
  };
}

const [, , extension, server] = process.argv;
const KINDS = ["Hover", "Definition", "Reference", "DocumentHighlight", "Rename", "CompletionItem"];
const OTHERS = ["CodeActions", "CodeLens", "DocumentFormattingEdit", "DocumentSymbol"];
const RANGED = ["FoldingRange", "DocumentSemanticTokens"];
const vscode = {
  Position,
  Range,
  Uri,
  WorkspaceEdit,
  CodeAction: keeping("title", "kind"),
  CodeActionKind: { QuickFix: "quickfix" },
  CodeLens: keeping("range", "command"),
  CompletionItem: keeping("label", "kind"),
  Diagnostic: keeping("range", "message", "severity"),
  DiagnosticRelatedInformation: keeping("location", "message"),
  DiagnosticSeverity: { Error: 0, Warning: 1, Information: 2, Hint: 3 },
  DocumentHighlight: keeping("range", "kind"),
  DocumentSymbol: keeping("name", "detail", "kind", "range", "selectionRange"),
  FoldingRange: keeping("start", "end"),
  Hover: keeping("contents", "range"),
  Location: keeping("uri", "range"),
  MarkdownString: keeping("value"),
  SemanticTokens: keeping("data"),
  SemanticTokensLegend: keeping("types", "modifiers"),
  SnippetString: keeping("value"),
  TextEdit: keeping("range", "newText"),
  languages: {
    createDiagnosticCollection: () => ({
      set: (uri, diagnostics) => told.push({ uri, diagnostics }),
      clear() {},
      dispose() {},
    }),
    ...Object.fromEntries(
      [...KINDS, ...OTHERS, ...RANGED].map((kind) => [`register${kind}Provider`, register(kind)])
    ),
  },
  window: { showErrorMessage: (message) => shown.push(message) },
  workspace: {
    textDocuments: documents,
    getConfiguration: () => ({ get: (name) => (name === "server" ? server : "") }),
    onDidOpenTextDocument: listen("open"),
    onDidChangeTextDocument: listen("change"),
    onDidSaveTextDocument: listen("save"),
    onDidCloseTextDocument: listen("close"),
  },
};

const load = Module._load;
Module._load = (name, ...others) => (name === "vscode" ? vscode : load(name, ...others));

function position([line, character]) {
  return new Position(line, character);
}

const token = { onCancellationRequested() {} };
const ASKED = {
  hover: (d, at) => registered.Hover.provideHover(d, position(at), token),
  definition: (d, at) => registered.Definition.provideDefinition(d, position(at), token),
  references: (d, at) =>
    registered.Reference.provideReferences(d, position(at), { includeDeclaration: true }, token),
  highlights: (d, at) =>
    registered.DocumentHighlight.provideDocumentHighlights(d, position(at), token),
  prepare: (d, at) => registered.Rename.prepareRename(d, position(at), token),
  rename: (d, at, name) => registered.Rename.provideRenameEdits(d, position(at), name, token),
  complete: (d, at) => registered.CompletionItem.provideCompletionItems(d, position(at), token),
  actions: (d, from, to) =>
    registered.CodeActions.provideCodeActions(
      d,
      new Range(position(from), position(to)),
      {},
      token
    ),
  lenses: (d) => registered.CodeLens.provideCodeLenses(d, token),
  format: (d) => registered.DocumentFormattingEdit.provideDocumentFormattingEdits(d, {}, token),
  symbols: (d) => registered.DocumentSymbol.provideDocumentSymbols(d, token),
  folds: (d) => registered.FoldingRange.provideFoldingRanges(d, {}, token),
  tokens: async (d) => {
    const found = await registered.DocumentSemanticTokens.provideDocumentSemanticTokens(d, token);
    return Array.from(found.data);
  },
};

async function run(given) {
  const document = {
    uri: Uri.parse(given.uri),
    languageId: "plex",
    version: 1,
    text: given.text,
    getText() {
      return this.text;
    },
  };
  const { activate, deactivate } = require(path.resolve(extension));
  const context = { subscriptions: [] };
  await activate(context);
  if (shown.length) {
    return { shown };
  }
  listeners.open(document);
  const answers = [];
  for (const [name, ...words] of given.steps) {
    if (name === "change") {
      document.version += 1;
      const range = new Range(position(words[0]), position(words[1]));
      listeners.change({ document, contentChanges: [{ range, text: words[2] }] });
      answers.push(null);
    } else if (name === "wait") {
      while (told.length < words[0]) {
        await new Promise((done) => setTimeout(done, 20));
      }
      answers.push(told[told.length - 1].diagnostics);
    } else {
      const refused = (error) => ({ refused: error.message });
      const answer = ASKED[name](document, ...words);
      answers.push((await answer.catch(refused)) ?? null);
    }
  }
  listeners.save(document);
  listeners.close(document);
  await deactivate();
  return { answers, shown };
}

let input = "";
process.stdin.on("data", (data) => {
  input += data;
});
process.stdin.on("end", () => {
  run(JSON.parse(input)).then(
    (answer) => process.stdout.write(`${JSON.stringify(answer)}\n`),
    (error) => {
      process.stderr.write(`${error.stack}\n`);
      process.exitCode = 1;
    }
  );
});
