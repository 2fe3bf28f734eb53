// Numbers as the browser's language writes them. They stay texts: a number of 64 bits does not fit a number of JavaScript.

const parts = new Intl.NumberFormat(navigator.language).formatToParts(-1234567.8);
const sign = (type, otherwise) => parts.find((part) => part.type === type)?.value ?? otherwise;
export const MARK = sign("decimal", ".");
const GROUP = sign("group", "\u202f");
const GAPS = /[\s\u202f\u00a0'’]/g;

// An item as a person reads it: with decimals, if its name has a unit, and with a sign between thousands. A whole number of four digits has
// none, since it may be a year.
export function shown(item, decimals = 0) {
  if (item === undefined) return "";
  const isNegative = item[0] === "¯";
  const digits = (isNegative ? item.slice(1) : item).padStart(decimals + 1, "0");
  const whole = decimals ? digits.slice(0, -decimals) : digits;
  const grouped = whole.length > 4 || decimals ? whole.replace(/\B(?=(\d{3})+$)/g, GROUP) : whole;
  return (isNegative ? "−" : "") + grouped + (decimals ? MARK + digits.slice(-decimals) : "");
}

// An item as a person types it, and as other programs read it: a minus sign of the keyboard, and nothing between thousands.
export function plain(item, decimals = 0) {
  const digits = item.replace("¯", "").padStart(decimals + 1, "0");
  const number = decimals ? digits.slice(0, -decimals) + MARK + digits.slice(-decimals) : digits;
  return item[0] === "¯" ? `-${number}` : number;
}

// A typed number as the language writes it, in units of its name. A text that is no number is returned unchanged, and the program refuses it.
export function literal(typed, decimals = 0) {
  const text = typed.trim().replace(GAPS, "").replaceAll(GROUP, "");
  const [, minus, whole, rest = ""] = text.match(pattern(decimals)) ?? [];
  if (minus === undefined || whole + rest === "") return typed.trim();
  const digits = (whole + rest.padEnd(decimals, "0")).replace(/^0+(?=\d)/, "");
  return (/[-−¯]/.test(minus) ? "¯" : "") + digits;
}

function pattern(decimals) {
  return new RegExp(decimals ? `^([-−¯+]?)(\\d*)(?:[${MARK}](\\d{0,${decimals}}))?$` : "^([-−¯+]?)(\\d+)$");
}

export const quoted = (text) => `'${text.replaceAll("'", "''")}'`;
export const number = (item) => Number(item.replace("¯", "-"));
