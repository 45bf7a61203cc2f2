'use strict';
// updates.js FILE RUNS
// The processor time that React's production build takes for an input of the profile, with a text host: for the mount
// (the script up to and with its first `flush`) and for the updates behind it. Not in the figures: reading, parsing and
// compiling the program, finding a path's instance, and a report. In them: dispatches, renders, commits, and effects,
// which log into a list. The process warms up first; the least and the median of RUNS runs are written, in milliseconds,
// as one line of JSON. A `work n` is n questions whether to yield, about half as many units as the profile's.

const fs = require('fs');
const { loadReact } = require('./load.js');
const { compile, splitInput } = require('./profile.js');

const WARM_UP = 15;
const PRIORITY = { sync: 1, input: 4, default: 16 };

/** The slicing of the present turn, for the Scheduler's stub; the clock stands still. */
const control = {
  unitsLeft: Infinity,
  shouldYield: () => control.unitsLeft-- <= 0,
  now: () => 0,
};

function readSteps(script) {
  const steps = [];
  for (const line of script) {
    const words = line.split(/[ \t\r]+/).filter((word) => word !== '');
    if (words.length === 0 || line.startsWith('#')) continue;
    const [word, ...rest] = words;
    if (word === 'send') throw new Error('no reducer is measured here');
    if (word === 'set' || word === 'call') {
      const path = rest[1].split('/').map((part) => {
        const [name, k] = part.split('@');
        return { name, k: k === undefined ? 0 : Number(k) };
      });
      steps.push({ word: 'dispatch', lane: rest[0], path, hook: rest[2],
        fn: word === 'call' ? rest[3] : null, value: Number(rest[rest.length - 1]) | 0 });
    } else if (word === 'resolve') steps.push({ word, name: rest[0], value: Number(rest[1]) });
    else steps.push({ word, budget: Number(rest[0]) });
  }
  return steps;
}

const spentMilliseconds = () => {
  const { user, system } = process.cpuUsage();
  return (user + system) / 1000;
};

class Run {
  constructor(programText, { React, jsx, internals }) {
    this.react = internals;
    this.log = [];             // what effects log
    this.values = new Map();   // of resources
    this.waiting = new Map();  // thenables of resources that were thrown
    this.microtasks = [];
    this.program = compile(programText, {
      $jsx: jsx,
      $Suspense: React.Suspense,
      $createContext: React.createContext,
      $useReducer: React.useReducer,
      $useContext: React.useContext,
      $useEffect: React.useEffect,
      $useLayoutEffect: React.useLayoutEffect,
      $use: (name) => {
        const value = this.values.get(name);
        if (value === undefined) throw this.resource(name);
        return value;
      },
      $effect: (label, values) => () => {
        this.log.push(label, values);
        return () => { this.log.push(label, values); };
      },
      $apply: (state, op) => (op.fn === null ? op.value : op.fn(state, op.value)),
    });
    this.container = { children: [] };
    this.element = jsx(this.program.App, { children: [] });
  }

  resource(name) {
    let resource = this.waiting.get(name);
    if (resource === undefined) {
      const listeners = [];
      resource = {
        listeners,
        then: (listener) => {
          if (this.values.has(name)) this.microtasks.push(listener); else listeners.push(listener);
        },
      };
      this.waiting.set(name, resource);
    }
    return resource;
  }

  /** Runs the whole script; answers the milliseconds of the mount and of the rest. */
  run(steps) {
    const { react } = this;
    let spent = 0;
    let mount = null;
    const timed = (work) => {
      const from = spentMilliseconds();
      work();
      spent += spentMilliseconds() - from;
    };
    timed(() => {
      this.root = react.createContainer(this.container, 1, null, false, null, '', () => {}, null);
      react.updateContainer(this.element, this.root, null, null);
      react.endEvent();
    });
    for (const step of steps) {
      switch (step.word) {
        case 'flush': timed(() => { while (this.turn(Infinity)); }); break;
        case 'flushsync': timed(() => { if (this.root.pendingLanes & 1) react.flushSyncCallbacks(); this.drain(); }); break;
        case 'work': timed(() => this.turn(step.budget)); break;
        case 'passive': timed(() => react.flushPassiveEffects()); break;
        case 'resolve': timed(() => this.resolve(step)); break;
        case 'dispatch': {
          const dispatch = this.dispatchOf(step.path, step.hook);
          const op = { fn: step.fn === null ? null : this.program.functions[step.fn], value: step.value };
          timed(() => this.dispatch(step.lane, dispatch, op));
          break;
        }
        default:
      }
      if (step.word !== 'dispatch') react.endEvent();
      if (mount === null && step.word === 'flush') { mount = spent; spent = 0; }
    }
    return { mount, updates: spent };
  }

  resolve({ name, value }) {
    this.values.set(name, value);
    const resource = this.waiting.get(name);
    if (resource !== undefined) this.microtasks.push(...resource.listeners.splice(0));
    this.drain();
  }

  dispatch(lane, dispatch, op) {
    const { react } = this;
    if (lane === 'transition') react.batchConfig.transition = {};
    else react.setUpdatePriority(PRIORITY[lane]);
    dispatch(op);
    react.batchConfig.transition = null;
    react.setUpdatePriority(0);
  }

  turn(budget) {
    const { react, root } = this;
    this.drain();
    react.markStarvedLanesAsExpired(root, control.now());
    const lanes = react.getNextLanes(root, react.workInProgressRoot() === root ? react.renderLanes() : 0);
    if (lanes === 0) return false;
    if (lanes & 1) react.flushSyncCallbacks();
    else {
      control.unitsLeft = budget;
      react.performConcurrentWorkOnRoot(root, false);
      control.unitsLeft = Infinity;
    }
    this.drain();
    return true;
  }

  drain() {
    while (this.microtasks.length > 0) this.microtasks.shift()();
  }

  dispatchOf(path, hookName) {
    let above = this.root.current;
    for (const { name, k } of path) {
      above = this.below(above, `c_${name}`, { k });
      if (above === null) throw new Error(`no instance ${name}@${k}`);
    }
    let cell = above.memoizedState;
    for (const hook of this.program.hooks.get(path[path.length - 1].name)) {
      if (hook !== null && hook.name === hookName) return cell.queue.dispatch;
      cell = cell.next;
    }
    throw new Error(`no hook ${hookName}`);
  }

  /** The k-th instance of a component below a fiber, with no component between. */
  below(fiber, type, left) {
    const { FunctionComponent } = this.react.tags;
    for (let child = fiber.child; child !== null; child = child.sibling) {
      if (child.tag === FunctionComponent) {
        if (child.type.name === type && left.k-- === 0) return child;
      } else {
        const found = this.below(child, type, left);
        if (found !== null) return found;
      }
    }
    return null;
  }
}

const sorted = (numbers) => [...numbers].sort((a, b) => a - b);
const figures = (numbers) => ({ least: sorted(numbers)[0], median: sorted(numbers)[Math.floor(numbers.length / 2)] });

function main([file, runs]) {
  const { program, script } = splitInput(fs.readFileSync(file, 'utf8'));
  const steps = readSteps(script);
  const react = loadReact(control);
  const once = () => new Run(program, react).run(steps);
  for (let i = 0; i < WARM_UP; i++) once();
  const warm = Array.from({ length: Number(runs) }, once);
  console.log(JSON.stringify({ mount: figures(warm.map((it) => it.mount)), updates: figures(warm.map((it) => it.updates)) }));
}

main(process.argv.slice(2));
