'use strict';
// Loads the production build of the installed React 18 reconciler (out of react-dom) with a text host.
//
// The files of the packages are read and patched in memory at load time:
//  - `scheduler` becomes a stub, so that the caller alone decides when a task runs and when a sliced render yields;
//  - the host configuration (createInstance, appendChild, ...) becomes `textHost`;
//  - a small object `internals` gives the caller the reconciler's own functions.
// Nothing of the reconciler's render, lane or commit code is changed.

const { execFileSync } = require('child_process');
const fs = require('fs');
const path = require('path');

// The folder of the packages: REACT_PACKAGES, or where Debian puts them.
const PACKAGES = process.env.REACT_PACKAGES || execFileSync('dpkg', ['-L', 'node-react-dom'], { encoding: 'utf8' })
  .split('\n').find((name) => name.endsWith('nodejs/react-dom/package.json')).replace('/react-dom/package.json', '');

const HOST_CONTEXT = {};
const DEFAULT_PRIORITY = 16; // React's DefaultEventPriority

function detach(parent, child) {
  const at = parent.children.lastIndexOf(child);
  if (at !== -1) parent.children.splice(at, 1);
}

function append(parent, child) {
  detach(parent, child);
  parent.children.push(child);
}

function insert(parent, child, before) {
  detach(parent, child);
  parent.children.splice(parent.children.indexOf(before), 0, child);
}

/** The host: plain objects, with the mark `hidden` that React's hideInstance sets. */
const textHost = {
  createInstance: (type, props) => ({ type, props, children: [], hidden: false }),
  createTextInstance: (text) => ({ text, hidden: false }),
  appendInitialChild: (parent, child) => { parent.children.push(child); },
  finalizeInitialChildren: () => false,
  shouldSetTextContent: () => false,
  prepareUpdate: (instance, type, oldProps, newProps) => (oldProps === newProps ? null : newProps),
  commitMount: () => {},
  commitUpdate: (instance, payload, type, oldProps, newProps) => { instance.props = newProps; },
  commitTextUpdate: (instance, oldText, newText) => { instance.text = newText; },
  resetTextContent: () => {},
  appendChild: append,
  appendChildToContainer: append,
  insertBefore: insert,
  insertInContainerBefore: insert,
  removeChild: detach,
  removeChildFromContainer: detach,
  hideInstance: (instance) => { instance.hidden = true; },
  unhideInstance: (instance) => { instance.hidden = false; },
  hideTextInstance: (instance) => { instance.hidden = true; },
  unhideTextInstance: (instance) => { instance.hidden = false; },
  clearContainer: (container) => { container.children.length = 0; },
  getRootHostContext: () => HOST_CONTEXT,
  getChildHostContext: (context) => context,
  getPublicInstance: (instance) => instance,
  prepareForCommit: () => null,
  resetAfterCommit: () => {},
  preparePortalMount: () => {},
  detachDeletedInstance: () => {},
  getCurrentEventPriority: () => DEFAULT_PRIORITY,
};

// How long the Scheduler lets a task wait before it tells it `didTimeout`, by priority.
const TASK_TIMEOUTS = { 1: -1, 2: 250, 3: 5000, 4: 10000, 5: 1073741823 };

/** A scheduler that runs nothing by itself: the caller calls the reconciler's entry points. */
function stubScheduler(control) {
  return {
    unstable_scheduleCallback: (priority, callback) => ({ callback, expires: control.now() + TASK_TIMEOUTS[priority] }),
    unstable_cancelCallback: (task) => { task.callback = null; },
    unstable_shouldYield: () => control.shouldYield(),
    unstable_requestPaint: () => {},
    unstable_now: () => control.now(),
    unstable_getCurrentPriorityLevel: () => 3,
    unstable_ImmediatePriority: 1,
    unstable_UserBlockingPriority: 2,
    unstable_NormalPriority: 3,
    unstable_LowPriority: 4,
    unstable_IdlePriority: 5,
  };
}

// Run inside the reconciler's own scope, after all of its declarations. Assigning to a function's name replaces it for
// every caller in that scope.
const ownHost = Object.keys(textHost).map((name) => `${name} = $host.${name};`).join('\n');
const exposed = `
  $expose({
    createContainer, updateContainer, getNextLanes, markStarvedLanesAsExpired, performConcurrentWorkOnRoot,
    flushPassiveEffects, flushSyncCallbacks,
    setUpdatePriority(lane) { setCurrentUpdatePriority(lane); },
    endEvent() { currentEventTransitionLane = 0; currentEventTime = -1; },
    workInProgressRoot: () => workInProgressRoot,
    renderLanes: () => workInProgressRootRenderLanes,
    batchConfig: ReactCurrentBatchConfig,
    tags: { FunctionComponent },
  });
`;

/** Evaluates one file of a package, with `extra` run in its innermost scope. */
function evaluate(file, resolve, extra, names, values) {
  const text = fs.readFileSync(path.join(PACKAGES, file), 'utf8');
  const at = text.search(/^exports\./m);
  if (at === -1) throw new Error(`no exports in ${file}`);
  const module = { exports: {} };
  new Function('require', 'exports', 'module', ...names, text.slice(0, at) + extra + text.slice(at))(
    resolve, module.exports, module, ...values);
  return module.exports;
}

function refuse(name) {
  throw new Error(`unexpected require of ${name}`);
}

/** Loads React; `control` has shouldYield() and now(). */
function loadReact(control) {
  process.env.NODE_ENV = 'production';
  const React = evaluate('react/cjs/react.production.min.js', refuse, '', [], []);
  const resolve = (name) => {
    if (name === 'react') return React;
    if (name === 'scheduler') return stubScheduler(control);
    return refuse(name);
  };
  const { jsx } = evaluate('react/cjs/react-jsx-runtime.production.min.js', resolve, '', [], []);
  let internals = null;
  evaluate('react-dom/cjs/react-dom.production.min.js', resolve, ownHost + exposed,
    ['$host', '$expose'], [textHost, (it) => { internals = it; }]);
  return { React, jsx, internals };
}

module.exports = { loadReact };
