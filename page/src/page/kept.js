// Reads and writes the data that the page stores in this browser, as JSON under names that begin with "listset-".
export const HERE = "listset-here"; // the address of the place shown last

export function keptUnder(name) {
  try {
    return JSON.parse(localStorage.getItem(name));
  } catch {
    return null;
  }
}

export function keepUnder(name, value) {
  try {
    localStorage.setItem(name, JSON.stringify(value));
    return true;
  } catch {
    return false;
  }
}

export const isText = (value) => typeof value === "string";
