// JSON-RPC 2.0 with a language server, over its standard input and output. No part of the editor is
// needed here.
"use strict";
const { spawn } = require("child_process");

const HEAD_END = "\r\n\r\n";
const LENGTH = /content-length: *(\d+)/i;

class Connection {
  // Starts the server. `heard` gets its notifications, and `ended` is called once when it is over,
  // with what it said last.
  constructor(command, words, heard, ended) {
    this.heard = heard;
    this.ended = ended;
    this.number = 0;
    this.waiting = new Map();
    this.input = Buffer.alloc(0);
    this.complaint = "";
    this.isOver = false;
    this.process = spawn(command, words, { stdio: "pipe" });
    this.process.on("error", (error) => this.end(error.message));
    this.process.on("close", () => this.end(this.complaint));
    this.process.stdin.on("error", () => {});
    this.process.stdout.on("data", (data) => this.take(data));
    this.process.stderr.on("data", (data) => {
      this.complaint = (this.complaint + data).slice(-2000);
    });
  }

  end(told) {
    if (this.isOver) {
      return;
    }
    this.isOver = true;
    for (const one of this.waiting.values()) {
      one.refuse(new Error("the language server has ended"));
    }
    this.waiting.clear();
    this.ended(told.trim());
  }

  // Takes what the server has written: whole messages, and the beginning of another one.
  take(data) {
    this.input = Buffer.concat([this.input, data]);
    for (;;) {
      const start = this.input.indexOf(HEAD_END) + HEAD_END.length;
      if (start < HEAD_END.length) {
        return;
      }
      const found = LENGTH.exec(this.input.toString("latin1", 0, start));
      const end = start + (found ? Number(found[1]) : 0);
      if (this.input.length < end) {
        return;
      }
      const body = this.input.toString("utf8", start, end);
      this.input = this.input.subarray(end);
      if (body) {
        this.hear(JSON.parse(body));
      }
    }
  }

  hear(message) {
    if (message.method !== undefined && message.id === undefined) {
      this.heard(message.method, message.params);
    } else if (message.method !== undefined) {
      const error = { code: -32601, message: "the client has no such method" };
      this.send({ jsonrpc: "2.0", id: message.id, error });
    } else if (this.waiting.has(message.id)) {
      const { give, refuse } = this.waiting.get(message.id);
      this.waiting.delete(message.id);
      if (message.error) {
        refuse(new Error(message.error.message));
      } else {
        give(message.result);
      }
    }
  }

  send(message) {
    if (this.isOver) {
      return;
    }
    const body = Buffer.from(JSON.stringify(message), "utf8");
    this.process.stdin.write(`Content-Length: ${body.length}${HEAD_END}`);
    this.process.stdin.write(body);
  }

  notify(method, params) {
    this.send({ jsonrpc: "2.0", method, params });
  }

  // The result of a request. `cancellation` is a token of the editor, or undefined.
  ask(method, params, cancellation) {
    const id = ++this.number;
    if (this.isOver) {
      return Promise.reject(new Error("the language server has ended"));
    }
    if (cancellation) {
      cancellation.onCancellationRequested(() => this.notify("$/cancelRequest", { id }));
    }
    return new Promise((give, refuse) => {
      this.waiting.set(id, { give, refuse });
      this.send({ jsonrpc: "2.0", id, method, params });
    });
  }

  // Ends the server as the protocol has it.
  async close() {
    await this.ask("shutdown", null).catch(() => null);
    this.notify("exit", null);
    if (!this.isOver) {
      this.process.stdin.end();
    }
  }
}

module.exports = { Connection };
