// Millimetres on the page, whole micrometres in the files: nothing is rounded.

export const mm = um => String(+(um / 1000).toFixed(3));
export const seconds = tenths => `${(tenths / 10).toFixed(1)} s`;

// A sum as exact fractions, so that 0.1 + 0.2 is 0.3.
const gcd = (a, b) => { while (b) [a, b] = [b, a % b]; return a < 0n ? -a : a; };
const fraction = (n, d) => {
  if (d === 0n) throw new Error("divided by nothing");
  const g = gcd(n, d) || 1n, sign = d < 0n ? -1n : 1n;
  return [sign * n / g, sign * d / g];
};
const plus = (a, b) => fraction(a[0] * b[1] + b[0] * a[1], a[1] * b[1]);
const times = (a, b) => fraction(a[0] * b[0], a[1] * b[1]);
const minus = a => [-a[0], a[1]];
const under = a => fraction(a[1], a[0]);

class Sum {
  constructor(text) { this.text = text; this.at = 0; }
  get next() { return this.text[this.at]; }
  value() {
    let sum = this.product();
    while (this.next === "+" || this.next === "-") {
      const isPlus = this.text[this.at++] === "+", other = this.product();
      sum = plus(sum, isPlus ? other : minus(other));
    }
    return sum;
  }
  product() {
    let made = this.atom();
    while (this.next === "*" || this.next === "/") {
      const isTimes = this.text[this.at++] === "*", other = this.atom();
      made = times(made, isTimes ? other : under(other));
    }
    return made;
  }
  atom() {
    if (this.next === "-") { this.at++; return minus(this.atom()); }
    if (this.next === "(") {
      this.at++;
      const inner = this.value();
      if (this.text[this.at++] !== ")") throw new Error("a bracket is open");
      return inner;
    }
    const found = /^(\d*)\.?(\d*)/.exec(this.text.slice(this.at)), [whole, left, right] = found;
    if (!left && !right) throw new Error("a number is wanted");
    this.at += whole.length;
    return fraction(BigInt(left + right), 10n ** BigInt(right.length));
  }
}

// The whole micrometres of a text in millimetres, a number or a sum; null where it is none.
export function toUm(text) {
  const clean = text.trim().replace(/mm$/, "").replaceAll(",", ".").replaceAll(" ", "");
  if (!clean || clean.length > 60) return null;
  try {
    const sum = new Sum(clean), [n, d] = times(sum.value(), [1000n, 1n]);
    return sum.at === clean.length && d === 1n && Number.isSafeInteger(Number(n)) ? Number(n) : null;
  } catch { return null; }
}
