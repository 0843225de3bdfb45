// The client of plex-lsp for VS Code: it tells the server of each text, and asks it for what the
// editor wants to know.
"use strict";
const vscode = require("vscode");
const { Connection } = require("./connection");

const LANGUAGE = "plex";
const MOST_STARTS = 4;
const SEVERITIES = [
  undefined,
  vscode.DiagnosticSeverity.Error,
  vscode.DiagnosticSeverity.Warning,
  vscode.DiagnosticSeverity.Information,
  vscode.DiagnosticSeverity.Hint,
];

let client;

// What the protocol and the editor call things differently.

function position(place) {
  return new vscode.Position(place.line, place.character);
}

function range(part) {
  return new vscode.Range(position(part.start), position(part.end));
}

function plain(part) {
  return { start: plainPosition(part.start), end: plainPosition(part.end) };
}

function plainPosition(place) {
  return { line: place.line, character: place.character };
}

function location(place) {
  return new vscode.Location(vscode.Uri.parse(place.uri), range(place.range));
}

function workspaceEdit(edit) {
  const made = new vscode.WorkspaceEdit();
  for (const [uri, changes] of Object.entries(edit.changes || {})) {
    made.set(vscode.Uri.parse(uri), changes.map(textEdit));
  }
  return made;
}

function textEdit(edit) {
  return new vscode.TextEdit(range(edit.range), edit.newText);
}

function diagnostic(told) {
  const made = new vscode.Diagnostic(range(told.range), told.message, SEVERITIES[told.severity]);
  made.code = told.code;
  made.source = told.source;
  made.tags = told.tags;
  made.relatedInformation = (told.relatedInformation || []).map(
    (one) => new vscode.DiagnosticRelatedInformation(location(one.location), one.message)
  );
  return made;
}

function symbol(told) {
  const made = new vscode.DocumentSymbol(
    told.name,
    told.detail || "",
    told.kind - 1,
    range(told.range),
    range(told.selectionRange)
  );
  made.children = (told.children || []).map(symbol);
  return made;
}

function completionItem(told) {
  const made = new vscode.CompletionItem(told.label, told.kind - 1);
  made.detail = told.detail;
  made.sortText = told.sortText;
  made.filterText = told.filterText;
  if (told.documentation) {
    made.documentation = told.documentation.value || told.documentation;
  }
  const text = told.textEdit ? told.textEdit.newText : told.insertText || told.label;
  made.insertText = told.insertTextFormat === 2 ? new vscode.SnippetString(text) : text;
  if (told.textEdit) {
    made.range = range(told.textEdit.range);
  }
  return made;
}

function codeAction(told) {
  const made = new vscode.CodeAction(told.title, vscode.CodeActionKind.QuickFix);
  made.edit = workspaceEdit(told.edit);
  made.diagnostics = (told.diagnostics || []).map(diagnostic);
  made.isPreferred = told.isPreferred;
  return made;
}

function codeLens(told) {
  return new vscode.CodeLens(range(told.range), told.command);
}

function hover(told) {
  const contents = told.contents.value || told.contents;
  return new vscode.Hover(
    new vscode.MarkdownString(contents),
    told.range ? range(told.range) : undefined
  );
}

class Client {
  constructor(diagnostics) {
    this.diagnostics = diagnostics;
    this.starts = 0;
    this.capabilities = undefined;
    this.isStopped = false;
  }

  // Starts the server, and tells it of the texts that are open.
  async start() {
    this.starts += 1;
    const settings = vscode.workspace.getConfiguration("plex");
    const command = settings.get("server") || "plex-lsp";
    this.connection = new Connection(
      command,
      [],
      (method, parameters) => this.hear(method, parameters),
      (told) => this.over(command, told)
    );
    const exchange = settings.get("exchange");
    const item = { snippetSupport: true };
    const answer = await this.connection.ask("initialize", {
      processId: process.pid,
      rootUri: null,
      capabilities: { textDocument: { completion: { completionItem: item } } },
      initializationOptions: exchange ? { exchange } : undefined,
    });
    this.capabilities = answer.capabilities;
    this.connection.notify("initialized", {});
    vscode.workspace.textDocuments.forEach((document) => this.open(document));
  }

  hear(method, parameters) {
    if (method === "textDocument/publishDiagnostics") {
      const uri = vscode.Uri.parse(parameters.uri);
      this.diagnostics.set(uri, parameters.diagnostics.map(diagnostic));
    }
  }

  // The server has ended: it is started again, a few times.
  over(command, told) {
    this.diagnostics.clear();
    if (this.isStopped) {
      return;
    }
    if (this.capabilities && this.starts < MOST_STARTS) {
      this.capabilities = undefined;
      this.start().catch(() => {});
      return;
    }
    const why = told ? `: ${told}` : "";
    vscode.window.showErrorMessage(`PLEX: the language server ${command} has ended${why}`);
  }

  async stop() {
    this.isStopped = true;
    await this.connection.close();
  }

  // Documents

  open(document) {
    if (document.languageId === LANGUAGE) {
      this.connection.notify("textDocument/didOpen", {
        textDocument: {
          uri: document.uri.toString(),
          languageId: document.languageId,
          version: document.version,
          text: document.getText(),
        },
      });
    }
  }

  change(event) {
    if (event.document.languageId === LANGUAGE && event.contentChanges.length) {
      this.connection.notify("textDocument/didChange", {
        textDocument: { uri: event.document.uri.toString(), version: event.document.version },
        contentChanges: event.contentChanges.map((one) => ({
          range: plain(one.range),
          text: one.text,
        })),
      });
    }
  }

  tell(method, document) {
    if (document.languageId === LANGUAGE) {
      const textDocument = { uri: document.uri.toString() };
      this.connection.notify(`textDocument/${method}`, { textDocument });
    }
  }

  // The answer of a request about a document, as `made` makes it for the editor.
  async ask(method, document, parameters, cancellation, made) {
    const textDocument = { uri: document.uri.toString() };
    const given = { textDocument, ...parameters };
    const answer = await this.connection.ask(`textDocument/${method}`, given, cancellation);
    return answer === null || answer === undefined ? undefined : made(answer);
  }

  each(method, document, parameters, cancellation, made) {
    return this.ask(method, document, parameters, cancellation, (answers) => answers.map(made));
  }
}

// What the editor asks, by the names of its interfaces.
function providers() {
  const languages = vscode.languages;
  const selector = { language: LANGUAGE };
  const legend = client.capabilities.semanticTokensProvider.legend;
  const tokens = (answer) => new vscode.SemanticTokens(new Uint32Array(answer.data));
  return [
    languages.registerHoverProvider(selector, {
      provideHover: (document, place, token) =>
        client.ask("hover", document, { position: plainPosition(place) }, token, hover),
    }),
    languages.registerDefinitionProvider(selector, {
      provideDefinition: (document, place, token) =>
        client.ask("definition", document, { position: plainPosition(place) }, token, location),
    }),
    languages.registerReferenceProvider(selector, {
      provideReferences: (document, place, context, token) =>
        client.each(
          "references",
          document,
          { position: plainPosition(place), context },
          token,
          location
        ),
    }),
    languages.registerDocumentHighlightProvider(selector, {
      provideDocumentHighlights: (document, place, token) =>
        client.each(
          "documentHighlight",
          document,
          { position: plainPosition(place) },
          token,
          (one) => new vscode.DocumentHighlight(range(one.range), one.kind - 1)
        ),
    }),
    languages.registerRenameProvider(selector, {
      prepareRename: (document, place, token) =>
        client.ask(
          "prepareRename",
          document,
          { position: plainPosition(place) },
          token,
          (one) => ({ range: range(one.range), placeholder: one.placeholder })
        ),
      provideRenameEdits: (document, place, newName, token) =>
        client.ask(
          "rename",
          document,
          { position: plainPosition(place), newName },
          token,
          workspaceEdit
        ),
    }),
    languages.registerCompletionItemProvider(
      selector,
      {
        provideCompletionItems: (document, place, token) =>
          client.each(
            "completion",
            document,
            { position: plainPosition(place) },
            token,
            completionItem
          ),
      },
      ...client.capabilities.completionProvider.triggerCharacters
    ),
    languages.registerCodeActionsProvider(
      selector,
      {
        provideCodeActions: (document, part, context, token) =>
          client.each(
            "codeAction",
            document,
            { range: plain(part), context: { diagnostics: [] } },
            token,
            codeAction
          ),
      },
      { providedCodeActionKinds: [vscode.CodeActionKind.QuickFix] }
    ),
    languages.registerCodeLensProvider(selector, {
      provideCodeLenses: (document, token) =>
        client.each("codeLens", document, {}, token, codeLens),
    }),
    languages.registerDocumentFormattingEditProvider(selector, {
      provideDocumentFormattingEdits: (document, _, token) =>
        client.each("formatting", document, {}, token, textEdit),
    }),
    languages.registerDocumentSymbolProvider(selector, {
      provideDocumentSymbols: (document, token) =>
        client.each("documentSymbol", document, {}, token, symbol),
    }),
    languages.registerFoldingRangeProvider(selector, {
      provideFoldingRanges: (document, _, token) =>
        client.each(
          "foldingRange",
          document,
          {},
          token,
          (one) => new vscode.FoldingRange(one.startLine, one.endLine)
        ),
    }),
    languages.registerDocumentSemanticTokensProvider(
      selector,
      {
        provideDocumentSemanticTokens: (document, token) =>
          client.ask("semanticTokens/full", document, {}, token, tokens),
      },
      new vscode.SemanticTokensLegend(legend.tokenTypes, legend.tokenModifiers)
    ),
  ];
}

async function activate(context) {
  const diagnostics = vscode.languages.createDiagnosticCollection("plex");
  client = new Client(diagnostics);
  context.subscriptions.push(diagnostics);
  try {
    await client.start();
  } catch (error) {
    return; // `over` has told of it
  }
  const workspace = vscode.workspace;
  context.subscriptions.push(
    workspace.onDidOpenTextDocument((document) => client.open(document)),
    workspace.onDidChangeTextDocument((event) => client.change(event)),
    workspace.onDidSaveTextDocument((document) => client.tell("didSave", document)),
    workspace.onDidCloseTextDocument((document) => client.tell("didClose", document)),
    ...providers()
  );
}

function deactivate() {
  return client ? client.stop() : undefined;
}

module.exports = { activate, deactivate };
