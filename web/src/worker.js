// The worker: it has the module, and does the jobs that the page sends, one after another.

import {answered} from "./serve.js";
import {surveyed} from "./survey.js";

/** @type {any} */
let module = null;

self.onmessage = ({data}) => {
  if (data.module) {
    module = data.module;
    return;
  }
  try {
    if (data.survey) {
      self.postMessage({number: data.number, told: surveyed(module, data.survey)});
      return;
    }
    const answer = answered(module, data);
    const transfer = [answer.output.buffer, answer.errors.buffer];
    self.postMessage({number: data.number, answer}, {transfer});
  } catch (error) {
    self.postMessage({number: data.number, broken: String(error)});
  }
};
