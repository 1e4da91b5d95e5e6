// The worker that runs the program, and a second one that waits for the next run, so that this begins at once.

/** What the run of a worker wrote, when it has ended; its status is missing where it was broken off. */
function answerOf(worker) {
  const written = { out: '', error: '' };
  const decoders = { out: new TextDecoder(), error: new TextDecoder() };
  return new Promise((goOn) => {
    worker.onerror = () => goOn(written);
    worker.onmessage = ({ data }) => {
      for (const name of ['out', 'error']) {
        if (data[name]) written[name] += decoders[name].decode(data[name], { stream: true });
      }
      if (data.ended || data.failed || data.stopped) goOn({ ...written, status: data.ended && data.ended.status });
    };
  });
}

/** Runs of the program, one at a time. `hears` takes what a run tells. */
class Process {
  constructor(script, hears) {
    this.address = URL.createObjectURL(new Blob([script], { type: 'text/javascript' }));
    this.hears = hears;
    this.module = null;
    this.spare = null;
    this.worker = null;
    this.asked = new Map();
    this.forget();
  }

  /** Makes ready for the first run. */
  load(module) {
    this.module = module;
    this.spare = this.made();
  }

  made() {
    const worker = new Worker(this.address);
    worker.postMessage({ module: this.module });
    return worker;
  }

  get isRunning() {
    return this.worker !== null;
  }

  /** Begins a run, and ends the one before. */
  begin(job) {
    this.stop();
    const worker = this.spare || this.made();
    this.spare = null;
    this.worker = worker;
    worker.onmessage = ({ data }) => worker === this.worker && this.hear(data);
    worker.onerror = (event) => worker === this.worker && this.hear({ failed: event.message });
    worker.postMessage({ job });
  }

  /** Runs a command beside all else, and returns what it wrote. A later one of the same name ends it. */
  async ask(words, files, input = new Uint8Array(0)) {
    const before = this.asked.get(words[0]);
    if (before) before.terminate();
    const worker = this.made();
    this.asked.set(words[0], worker);
    worker.postMessage({ job: { words, files, input } });
    const answer = await answerOf(worker);
    worker.terminate();
    return answer;
  }

  /** Runs a short command beside all else, behind those that were asked for so before, in a worker that is kept. */
  askNext(words, files, input) {
    const queue = this.queue.then(() => {
      this.kept = this.kept || this.made();
      const answer = answerOf(this.kept);
      this.kept.postMessage({ job: { words, files, input } });
      return answer;
    });
    this.queue = queue;
    return queue;
  }

  /** Ends what was asked for so; it is answered no more. */
  forget() {
    if (this.kept) this.kept.terminate();
    this.kept = null;
    this.queue = Promise.resolve();
  }

  hear(told) {
    if (told.ended || told.failed || told.stopped) this.stop();
    this.hears(told);
  }

  /** Gives the run bytes of input, or its end where there are none. */
  answer(bytes) {
    if (this.worker) this.worker.postMessage({ answer: bytes });
  }

  stop() {
    if (!this.worker) return;
    this.worker.terminate();
    this.worker = null;
    this.spare = this.spare || this.made();
  }
}
