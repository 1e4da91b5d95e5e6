// The worker: runs what the page asks for, one run after another. It is ended to stop a run.

let program = null;
let run = null;

globalThis.onmessage = ({ data }) => {
  if (data.module) program = data.module;
  if (data.job) {
    run = new Run(program, data.job, (message) => globalThis.postMessage(message));
    run.begin();
  }
  if ('answer' in data) run.answer(data.answer);
};
