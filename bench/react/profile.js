'use strict';
// The JSX profile: text -> tokens -> syntax tree -> JavaScript source of React components.
// Only the grammar is checked here; what a program has to meet beside it is the business of fiber_run.

// ---------------------------------------------------------------- tokens

const RESERVED = new Set(('const function return null for children key createContext useState '
  + 'useReducer useContext useEffect useLayoutEffect use Suspense Provider').split(' '));
const TOKEN = new RegExp([
  '(?<space>[ \\t\\r\\n]+|//[^\\n]*|/\\*[\\s\\S]*?\\*/)',
  '(?<word>[A-Za-z_$][A-Za-z0-9_$]*)',
  '(?<number>[0-9][A-Za-z0-9_$]*)',
  '"(?<string>[^"\\\\\\u0000-\\u001f]*)"',
  '(?<sign><=|>=|===|!==|&&|\\|\\||[(){}\\[\\]<>,;:?.=+\\-*/%!])',
].join('|'), 'y');

class Refused extends Error {}

function lex(text) {
  const tokens = [];
  TOKEN.lastIndex = 0;
  while (TOKEN.lastIndex < text.length) {
    const at = TOKEN.lastIndex;
    const match = TOKEN.exec(text);
    if (match === null) throw new Refused(`2 at ${at}`);
    const { space, word, number, string, sign } = match.groups;
    if (space !== undefined) continue;
    if (word !== undefined) {
      const kind = RESERVED.has(word) ? word : /^[A-Z]/.test(word) ? 'Upper' : 'Lower';
      tokens.push({ kind, text: word, at });
    } else if (number !== undefined) {
      if (!/^(0|[1-9][0-9]*)$/.test(number) || Number(number) > 2147483648) throw new Refused(`2 at ${at}`);
      tokens.push({ kind: 'Number', value: Number(number) | 0, at });
    } else if (string !== undefined) {
      tokens.push({ kind: 'String', text: string, at });
    } else {
      tokens.push({ kind: sign, at });
    }
  }
  tokens.push({ kind: 'end', at: text.length });
  return tokens;
}

// ---------------------------------------------------------------- parser

const LEVELS = [['||'], ['&&'], ['===', '!=='], ['<', '<=', '>', '>='], ['+', '-'], ['*', '/', '%']];

class Parser {
  constructor(text) {
    this.tokens = lex(text);
    this.place = 0;
  }

  peek(ahead = 0) { return this.tokens[Math.min(this.place + ahead, this.tokens.length - 1)].kind; }
  next() { return this.tokens[this.place++]; }
  fail() { throw new Refused(`3 at ${this.tokens[this.place].at}`); }
  take(kind) {
    if (this.peek() !== kind) this.fail();
    return this.next();
  }
  has(kind) {
    if (this.peek() !== kind) return false;
    this.place++;
    return true;
  }
  /** One or more of `item`, parted by commas. */
  list(item) {
    const found = [item()];
    while (this.has(',')) found.push(item());
    return found;
  }

  program() {
    const decls = [];
    while (this.peek() !== 'end') decls.push(this.decl());
    return decls;
  }

  decl() {
    if (this.has('const')) {
      const name = this.take('Upper').text;
      this.take('=');
      this.take('createContext'); this.take('(');
      const sign = this.has('-') ? -1 : 1;
      const value = (sign * this.take('Number').value) | 0;
      this.take(')'); this.take(';');
      return { kind: 'context', name, value };
    }
    this.take('function');
    if (this.peek() === 'Lower') {
      const name = this.next().text;
      this.take('(');
      const params = this.peek() === ')' ? [] : this.list(() => this.take('Lower').text);
      this.take(')'); this.take('{');
      const consts = [];
      while (this.has('const')) {
        const local = this.take('Lower').text;
        this.take('=');
        consts.push({ name: local, value: this.expr() });
        this.take(';');
      }
      this.take('return');
      const result = this.expr();
      this.take(';'); this.take('}');
      return { kind: 'function', name, params, consts, result };
    }
    return this.component(this.take('Upper').text);
  }

  component(name) {
    this.take('(');
    const params = [];
    if (this.has('{')) {
      if (this.peek() !== '}') {
        params.push(...this.list(() => (this.has('children') ? 'children' : this.take('Lower').text)));
      }
      this.take('}');
    }
    this.take(')'); this.take('{');
    const stmts = [];
    while (this.peek() !== 'return') stmts.push(this.stmt());
    this.take('return');
    const body = this.body();
    this.take(';'); this.take('}');
    return { kind: 'component', name, params, stmts, body };
  }

  stmt() {
    if (this.peek() === 'useEffect' || this.peek() === 'useLayoutEffect') {
      const layout = this.next().kind === 'useLayoutEffect';
      this.take('(');
      const label = this.take('String').text;
      this.take(','); this.take('[');
      const deps = this.peek() === ']' ? [] : this.list(() => this.expr());
      this.take(']'); this.take(')'); this.take(';');
      return { kind: 'effect', layout, label, deps };
    }
    this.take('const');
    if (this.has('[')) {
      const name = this.take('Lower').text;
      this.take(',');
      this.take('Lower');
      this.take(']'); this.take('=');
      const reducerHook = this.peek() === 'useReducer';
      if (!reducerHook) this.take('useState'); else this.next();
      this.take('(');
      let reducer = null;
      if (reducerHook) {
        reducer = this.take('Lower').text;
        this.take(',');
      }
      const initial = this.expr();
      this.take(')'); this.take(';');
      return { kind: 'state', name, reducer, initial };
    }
    const name = this.take('Lower').text;
    this.take('=');
    let stmt;
    if (this.has('useContext')) {
      this.take('(');
      stmt = { kind: 'context', name, context: this.take('Upper').text };
      this.take(')');
    } else if (this.has('use')) {
      this.take('(');
      stmt = { kind: 'use', name, resource: this.take('String').text };
      this.take(')');
    } else {
      stmt = { kind: 'const', name, value: this.expr() };
    }
    this.take(';');
    return stmt;
  }

  /** A body as its list of slots. */
  body() {
    if (this.peek() === '<' && this.peek(1) === '>') return this.fragment();
    if (this.peek() === '(' && this.peek(1) === '<' && this.peek(2) === '>') {
      this.next();
      const slots = this.fragment();
      this.take(')');
      return slots;
    }
    return [this.slot()];
  }

  fragment() {
    this.take('<'); this.take('>');
    const slots = this.children();
    this.take('<'); this.take('/'); this.take('>');
    return slots;
  }

  children() {
    const slots = [];
    while (!(this.peek() === '<' && this.peek(1) === '/')) {
      if (this.has('{')) {
        slots.push(this.slot());
        this.take('}');
      } else {
        slots.push(this.element());
      }
    }
    return slots;
  }

  slot() {
    switch (this.peek()) {
      case 'null': this.next(); return { kind: 'null' };
      case 'String': return { kind: 'string', text: this.next().text };
      case '<': return this.element();
      case 'children': this.next(); return { kind: 'children' };
      case 'for': return this.forSlot();
      default:
    }
    if (this.peek() === '(' && this.peek(1) === '<') {
      this.next();
      const element = this.element();
      this.take(')');
      return element;
    }
    const test = this.binary(0);
    if (!this.has('?')) return { kind: 'expr', value: test };
    const yes = this.slot();
    this.take(':');
    return { kind: 'if', test, yes, no: this.slot() };
  }

  forSlot() {
    this.take('for'); this.take('(');
    const name = this.take('Lower').text;
    this.take('<');
    const bound = this.expr();
    this.take(',');
    const most = this.take('Number').value;
    this.take(')');
    return { kind: 'for', name, bound, most, item: this.slot() };
  }

  element() {
    this.take('<');
    const element = { kind: 'element', tag: null, name: null, key: null, attrs: [], fallback: null, value: null, children: [] };
    if (this.has('Suspense')) element.tag = 'Suspense';
    else if (this.peek() === 'Lower') { element.tag = 'host'; element.name = this.next().text; }
    else {
      element.name = this.take('Upper').text;
      element.tag = 'component';
      if (this.has('.')) { this.take('Provider'); element.tag = 'provider'; }
    }
    while (this.peek() !== '/' && this.peek() !== '>') this.attribute(element);
    if (this.has('/')) { this.take('>'); return element; }
    this.take('>');
    element.children = this.children();
    this.take('<'); this.take('/');
    if (element.name === null) this.take(element.tag);
    else {
      if (this.tokens[this.place].text !== element.name) this.fail();
      this.next();
      if (element.tag === 'provider') { this.take('.'); this.take('Provider'); }
    }
    this.take('>');
    return element;
  }

  attribute(element) {
    if (this.has('key')) {
      this.take('='); this.take('{');
      element.key = this.expr();
      this.take('}');
      return;
    }
    const name = this.take('Lower').text;
    this.take('=');
    if (element.tag === 'host' && this.peek() === 'String') {
      element.attrs.push({ name, text: this.next().text });
      return;
    }
    this.take('{');
    if (element.name === null) {
      if (name !== 'fallback') this.fail();
      element.fallback = this.slot();
    } else if (element.tag === 'provider') {
      if (name !== 'value') this.fail();
      element.value = this.expr();
    } else {
      element.attrs.push({ name, value: this.expr() });
    }
    this.take('}');
  }

  expr() {
    const test = this.binary(0);
    if (!this.has('?')) return test;
    const yes = this.expr();
    this.take(':');
    return { kind: 'cond', test, yes, no: this.expr() };
  }

  binary(level) {
    if (level === LEVELS.length) return this.unary();
    let left = this.binary(level + 1);
    while (LEVELS[level].includes(this.peek())) {
      const op = this.next().kind;
      left = { kind: 'binary', op, left, right: this.binary(level + 1) };
    }
    return left;
  }

  unary() {
    if (this.peek() === '!' || this.peek() === '-') {
      const op = this.next().kind;
      return { kind: 'unary', op, value: this.unary() };
    }
    if (this.peek() === 'Number') return { kind: 'number', value: this.next().value };
    if (this.has('(')) {
      const inner = this.expr();
      this.take(')');
      return inner;
    }
    const name = this.take('Lower').text;
    if (!this.has('(')) return { kind: 'name', name };
    const args = this.peek() === ')' ? [] : this.list(() => this.expr());
    this.take(')');
    return { kind: 'call', name, args };
  }
}

// ---------------------------------------------------------------- JavaScript
//
// Names are prefixed (v_ variables and props, f_ functions, c_ components, x_ contexts), so
// that no name of the profile meets one of JavaScript or of React.
// Every child list is an array, so that React gives each child its index or key as identity;
// a `for` and `{children}` are arrays inside it, which React makes Fragment fibers of.

function expression(e) {
  switch (e.kind) {
    case 'number': return `(${e.value})`;
    case 'name': return `v_${e.name}`;
    case 'call': return `f_${e.name}(${e.args.map(expression).join(', ')})`;
    case 'cond': return `(${expression(e.test)} !== 0 ? ${expression(e.yes)} : ${expression(e.no)})`;
    case 'unary': return e.op === '!' ? `(${expression(e.value)} === 0 ? 1 : 0)` : `(-${expression(e.value)} | 0)`;
    default:
  }
  const left = expression(e.left);
  const right = expression(e.right);
  switch (e.op) {
    case '+': case '-': return `(${left} ${e.op} ${right} | 0)`;
    case '*': return `$imul(${left}, ${right})`;
    case '/': return `$div(${left}, ${right})`;
    case '%': return `$rem(${left}, ${right})`;
    case '&&': case '||': return `(${left} ${e.op} ${right})`;
    default: return `(${left} ${e.op} ${right} ? 1 : 0)`;
  }
}

const slotList = (slots) => `[${slots.map(slotCode).join(', ')}]`;

function slotCode(slot) {
  switch (slot.kind) {
    case 'null': return 'null';
    case 'string': return JSON.stringify(slot.text);
    case 'children': return 'v_children';
    case 'expr': return expression(slot.value);
    case 'if': return `(${expression(slot.test)} !== 0 ? ${slotCode(slot.yes)} : ${slotCode(slot.no)})`;
    case 'for': return `$list(${expression(slot.bound)}, ${slot.most}, (v_${slot.name}) => (${slotCode(slot.item)}))`;
    default: return elementCode(slot);
  }
}

function elementCode(element) {
  const props = element.attrs.map(({ name, text, value }) =>
    `v_${name}: ${text === undefined ? expression(value) : JSON.stringify(text)}`);
  let type;
  switch (element.tag) {
    case 'host': type = JSON.stringify(element.name); break;
    case 'component': type = `c_${element.name}`; break;
    case 'Suspense': type = '$Suspense'; props.push(`fallback: ${slotList([element.fallback])}`); break;
    default: type = `x_${element.name}.Provider`; props.push(`value: ${expression(element.value)}`);
  }
  // A component without children gets an empty list, which its `{children}` places.
  props.push(`children: ${slotList(element.children)}`);
  const key = element.key === null ? '' : `, ${expression(element.key)}`;
  return `$jsx(${type}, { ${props.join(', ')} }${key})`;
}

function stmtCode(stmt) {
  switch (stmt.kind) {
    case 'state': return `const v_${stmt.name} = $useReducer($apply, ${expression(stmt.initial)})[0];`;
    case 'context': return `const v_${stmt.name} = $useContext(x_${stmt.context});`;
    case 'use': return `const v_${stmt.name} = $use(${JSON.stringify(stmt.resource)});`;
    case 'const': return `const v_${stmt.name} = ${expression(stmt.value)};`;
    default: {
      const deps = `[${stmt.deps.map(expression).join(', ')}]`;
      const hook = stmt.layout ? '$useLayoutEffect' : '$useEffect';
      return `{ const $deps = ${deps}; ${hook}($effect(${JSON.stringify(stmt.label)}, $deps), $deps); }`;
    }
  }
}

function declCode(decl) {
  switch (decl.kind) {
    case 'context': return `const x_${decl.name} = $createContext(${decl.value});`;
    case 'function': {
      const params = decl.params.map((name) => `v_${name}`).join(', ');
      const consts = decl.consts.map(({ name, value }) => `const v_${name} = ${expression(value)};`);
      return `function f_${decl.name}(${params}) { ${consts.join(' ')} return ${expression(decl.result)}; }`;
    }
    default: {
      const params = decl.params.map((name) => (name === 'children' ? 'children: v_children' : `v_${name}`));
      const lines = [...decl.stmts.map(stmtCode), `return ${slotList(decl.body)};`];
      return `function c_${decl.name}({ ${params.join(', ')} }) {\n  ${lines.join('\n  ')}\n}`;
    }
  }
}

/** What generated code calls besides React. */
const builtins = {
  $imul: Math.imul,
  $div: (a, b) => (b === 0 ? 0 : (a / b) | 0),
  $rem: (a, b) => (b === 0 ? 0 : (a % b) | 0),
  $list(bound, most, item) {
    const count = Math.min(bound, most);
    const items = [];
    for (let i = 0; i < count; i++) items.push(item(i));
    return items;
  },
};

/** What React keeps in a component's list of hooks for a statement: names of states, else null. */
function hookCells(stmt) {
  switch (stmt.kind) {
    case 'state': return [{ name: stmt.name }];
    case 'effect': return [null];
    default: return [];
  }
}

/**
 * Compiles a program. `runtime` gives $jsx, $Suspense, $createContext, $useReducer, $useContext, $useEffect,
 * $useLayoutEffect, $use, $effect and $apply. Answers the App component, the functions by name, and for each
 * component the hooks that React keeps, in order.
 */
function compile(text, runtime) {
  const decls = new Parser(text).program();
  const functions = decls.filter((it) => it.kind === 'function').map((it) => it.name);
  const components = decls.filter((it) => it.kind === 'component');
  // Contexts first: a `const` can stand after the components that read it.
  const ordered = [...decls].sort((a, b) => (a.kind === 'context' ? 0 : 1) - (b.kind === 'context' ? 0 : 1));
  const source = `'use strict';\n${ordered.map(declCode).join('\n')}
    return { App: c_App, functions: { ${functions.map((name) => `${name}: f_${name}`).join(', ')} } };`;
  const names = { ...builtins, ...runtime };
  const { App, functions: table } = new Function(...Object.keys(names), source)(...Object.values(names));
  const hooks = new Map(components.map((it) => [it.name, it.stmts.flatMap(hookCells)]));
  return { App, functions: table, hooks };
}

/** Splits an input at its first line `---`: the program's text and the script's lines. */
function splitInput(input) {
  const lines = input.split('\n');
  const at = lines.findIndex((line) => line === '---' || line === '---\r');
  if (at === -1) return { program: input, script: [] };
  return { program: lines.slice(0, at).map((line) => `${line}\n`).join(''), script: lines.slice(at + 1) };
}

module.exports = { compile, splitInput };
