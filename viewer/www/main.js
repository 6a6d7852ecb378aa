/** Starts the parts of the page, and opens the first project. */
import { state, on, changed } from './state.js';
import { LANGUAGES, language, setLanguage, text } from './texts.js';
import { $, make, translate, complain } from './dom.js';
import { explain } from './faults.js';
import * as api from './api.js';
import * as view from './view.js';
import * as elements from './elements.js';
import * as sections from './sections.js';
import * as versions from './versions.js';
import * as clashes from './clashes.js';
import * as topics from './topics.js';
import * as rules from './rules.js';
import * as upload from './upload.js';

const TABS = ['clashes', 'topics', 'rules', 'versions'];

function showTab(name) {
  for (const tab of TABS) {
    const chosen = tab === name;
    $('tab-' + tab).setAttribute('aria-selected', String(chosen));
    $('tab-' + tab).tabIndex = chosen ? 0 : -1;
    $('pane-' + tab).hidden = !chosen;
  }
  document.querySelector('main').classList.toggle('wide', name === 'rules');
}

function tabs() {
  TABS.forEach((name, n) => {
    $('tab-' + name).addEventListener('click', () => showTab(name));
    $('tab-' + name).addEventListener('keydown', event => {
      const step = { ArrowRight: 1, ArrowLeft: -1 }[event.key];
      if (!step) return;
      const next = TABS[(n + step + TABS.length) % TABS.length];
      showTab(next);
      $('tab-' + next).focus();
    });
  });
}

function languages() {
  $('language').replaceChildren(...Object.keys(LANGUAGES).map(value => make('option', LANGUAGES[value], { value })));
  const use = () => {
    document.documentElement.lang = language();
    document.title = text('title');
    $('language').value = language();
    translate();
  };
  use();
  $('language').addEventListener('change', () => {
    setLanguage($('language').value);
    use();
    changed('language', 'version-texts', 'look');
  });
}

/** The name that is sent with each request, or the one that was signed in with, which can't be changed here. */
async function user() {
  const signedIn = await api.currentUser();
  $('user').value = signedIn || localStorage.getItem('user') || '';
  $('user').readOnly = signedIn !== null;
  $('user').previousElementSibling.dataset.text = signedIn ? 'signedInAs' : 'yourName';
  translate();
  $('user').addEventListener('change', () => localStorage.setItem('user', $('user').value.trim()));
}

async function projects() {
  state.projects = await api.projects();
  $('project').replaceChildren(...state.projects.map(project => make('option', project.name, { value: project.project_id })));
  const choose = () => { state.project = $('project').value; changed('project'); };
  $('project').addEventListener('change', choose);
  choose();
}

async function begin() {
  languages();
  tabs();
  await user();
  try {
    view.start();
  } catch (fault) {
    complain(fault.message === 'noWebGL' ? text('noWebGL') : fault.message);
    return;
  }
  for (const part of [elements, sections, clashes, topics, rules, upload, versions]) part.start();
  on('newVersion', () => changed('refresh'));
  await projects();
}

begin().catch(fault => complain(explain(fault)));

/** For tests: what the page knows and draws. */
window.page = { state, view: view.inside };
