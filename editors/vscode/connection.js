// JSON-RPC with a program over its standard input and output, as the Language Server Protocol has it.
const { spawn } = require("node:child_process");

const HEAD_END = "\r\n\r\n";

class Connection {
  #last = 0;
  #waiting = new Map();
  // The bytes that were read and are not taken yet, in pieces; how many they are, and how many the next message needs.
  #pieces = [];
  #length = 0;
  #needed = 0;

  // Starts the program with these words. `notified` gets the method and the parameters of each notification, `ended` a
  // text when the program has ended by itself.
  constructor(command, words, { notified, ended }) {
    this.process = spawn(command, words, { stdio: ["pipe", "pipe", "inherit"] });
    this.started = new Promise((resolve, reject) => this.process.once("spawn", resolve).once("error", reject));
    this.notified = notified;
    this.process.stdout.on("data", (bytes) => this.#read(bytes));
    this.process.stdin.on("error", () => {}); // a program that has ended; `exit` tells of it
    this.process.once("exit", (status, signal) => {
      for (const { reject } of this.#waiting.values()) reject(new Error("the server has ended"));
      this.#waiting.clear();
      if (!this.isClosing) ended(status === null ? `signal ${signal}` : `status ${status}`);
    });
  }

  // The pieces are joined when they have a whole message, so that a long one is not copied for each piece of it.
  #read(piece) {
    this.#pieces.push(piece);
    this.#length += piece.length;
    while (this.#length >= this.#needed) {
      const bytes = this.#pieces.length === 1 ? this.#pieces[0] : Buffer.concat(this.#pieces, this.#length);
      this.#pieces = [bytes];
      const head = bytes.indexOf(HEAD_END);
      if (head < 0) return;
      const start = head + HEAD_END.length;
      const length = Number(/^Content-Length: *(\d+)/im.exec(bytes.toString("latin1", 0, head))?.[1] ?? -1);
      if (length < 0) this.process.kill(); // no server speaks like this
      if (length < 0) return;
      this.#needed = start + length;
      if (this.#length < this.#needed) return;
      [this.#pieces, this.#length, this.#needed] = [[bytes.subarray(start + length)], this.#length - this.#needed, 0];
      this.#take(JSON.parse(bytes.toString("utf8", start, start + length)));
    }
  }

  #take({ id, method, params, result, error }) {
    if (method !== undefined) {
      this.notified(method, params);
      return;
    }
    const asked = this.#waiting.get(id);
    this.#waiting.delete(id);
    if (error) asked?.reject(new Error(error.message));
    else asked?.resolve(result);
  }

  #send(message) {
    const body = Buffer.from(JSON.stringify({ jsonrpc: "2.0", ...message }));
    this.process.stdin.write(`Content-Length: ${body.length}${HEAD_END}`);
    this.process.stdin.write(body);
  }

  notify(method, params) {
    this.#send({ method, params });
  }

  // The result of a request. It is rejected with the server's error.
  request(method, params) {
    const id = ++this.#last;
    return new Promise((resolve, reject) => {
      this.#waiting.set(id, { resolve, reject });
      this.#send({ id, method, params });
    });
  }

  // Ends the conversation, and within two seconds the program.
  async close() {
    this.isClosing = true;
    const isStarted = await this.started.then(() => true, () => false);
    if (!isStarted || this.process.exitCode !== null || this.process.signalCode !== null) return;
    const gone = new Promise((resolve) => this.process.once("exit", resolve));
    const timer = setTimeout(() => this.process.kill(), 2000);
    this.request("shutdown").then(() => this.notify("exit"), () => {});
    await gone;
    clearTimeout(timer);
  }
}

exports.Connection = Connection;
