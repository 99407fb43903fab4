// Data that the page loads on demand: the proved code of the lists.
import { loadScript } from "./engine.js";

/** @type {{ CODE: any, CODE_OF: any }} */
export const more = { CODE: null, CODE_OF: {} };
const loading = { begun: null };

export async function loadMore() {
  if (typeof MORE === "undefined") await (loading.begun ??= loadScript("more.js"));
  Object.assign(more, MORE);
}
