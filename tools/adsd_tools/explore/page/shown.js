// How a text is shown: nothing in it ends a line, moves a cursor or turns the direction of writing.

const SPELLED = /[\u0000-\u001f\u007f-\u009f\u061c\u200e\u200f\u2028-\u202e\u2066-\u2069\ufeff]/g;
const bytes = new TextEncoder();

// A text with a backslash and two upper-case digits for each byte of a character that isn't to be printed.
export function shown(text) {
  return text.replace(SPELLED, (letter) => [...bytes.encode(letter)].map(
    (byte) => "\\" + byte.toString(16).toUpperCase().padStart(2, "0")).join(""));
}
