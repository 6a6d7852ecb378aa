/** The requests to the server, and its errors. Paths are those of docs/API.md. */

const COORD = '/coord/1/projects/';
const BCF = '/bcf/3.0/projects/';
const PAGE = 1000;

/** An answer that says no: `code` is the server's (as U9), `body` its members. */
export class ApiError extends Error {
  constructor(status, body) {
    super(body.message || String(status));
    this.status = status;
    this.code = body.code || String(status);
    this.body = body;
  }
}

/** Whether the front has said who this is: it names the user itself then, whatever the page sends. */
let signedIn = false;

/** The name as the bytes of a header field: UTF-8, since fetch sends one byte a character. */
function userHeader() {
  const name = localStorage.getItem('user');
  if (!name || signedIn) return {};
  return { 'X-User': String.fromCharCode(...new TextEncoder().encode(name)) };
}

function read(text) {
  try {
    return JSON.parse(text);
  } catch (fault) {
    return {};
  }
}

async function request(method, path, body) {
  const options = { method, headers: userHeader(), cache: 'no-store' };
  if (body !== undefined) options.body = JSON.stringify(body);
  let reply;
  try {
    reply = await fetch(path, options);
  } catch (fault) {
    throw new ApiError(0, { code: 'unreachable', message: 'unreachable' });
  }
  const json = read(await reply.text());
  if (!reply.ok) throw new ApiError(reply.status, json);
  return { status: reply.status, json };
}

const get = async path => (await request('GET', path)).json;
const wait = time => new Promise(done => setTimeout(done, time));

/** Who the front says that this is, or null if nobody signs in here. */
export async function currentUser() {
  const reply = await fetch('/bcf/3.0/current-user', { cache: 'no-store' }).catch(() => null);
  const name = reply && reply.status === 200 ? read(await reply.text()).name : null;
  signedIn = !!name;
  return name || null;
}

export const projects = () => get('/bcf/3.0/projects');

/**
 * A version with its boxes in millimetres. The server gives them in grid numbers, of which a millimetre has `per_mm`; a
 * server that doesn't say so counts millimetres.
 */
export async function version(project, number) {
  const reply = await get(`${COORD}${project}/versions/${number}`);
  reply.per_mm = reply.per_mm || 1;
  for (const model of reply.models) for (const element of model.elements) element.box = element.box.map(v => v / reply.per_mm);
  return reply;
}

/** The newest version's number, by the smallest reply that has it. */
export const newest = async project => (await get(`${COORD}${project}/versions/newest/clashes?count=1`)).version;

/** One page of a version's clashes; asks again while they are looked for, and says how many places are left. */
async function clashPage(project, number, first, progress, stopped) {
  for (let pause = 150; ; pause = Math.min(1000, pause * 1.5)) {
    const path = `${COORD}${project}/versions/${number}/clashes?first=${first}&count=${PAGE}`;
    const { status, json } = await request('GET', path);
    if (status !== 202 || stopped()) return json;
    progress(json.left);
    await wait(pause);
  }
}

/** All clashes of a version up to a bound, each with its place in the list, and their total. */
export async function clashes(project, number, bound, progress, stopped) {
  const list = [];
  for (let total = 1; list.length < Math.min(total, bound);) {
    const page = await clashPage(project, number, list.length, progress, stopped);
    if (stopped() || !page.clashes.length) break;
    for (const clash of page.clashes) list.push(Object.assign(clash, { place: list.length, version: number }));
    total = page.total;
    list.total = total;
  }
  list.total = list.total || 0;
  return list;
}

export const topicOfClash = async (project, number, place) =>
  (await request('POST', `${COORD}${project}/versions/${number}/clashes/${place}/topic`)).json;

const topicPath = (project, guid) => `${BCF}${project}/topics/${guid}`;
export const topics = project => get(`${BCF}${project}/topics`);
export const topic = (project, guid) => get(topicPath(project, guid));
export const makeTopic = async (project, body) => (await request('POST', `${BCF}${project}/topics`, body)).json;
export const putTopic = async (project, guid, body) => (await request('PUT', topicPath(project, guid), body)).json;
export const comments = (project, guid) => get(topicPath(project, guid) + '/comments');
export const makeComment = async (project, guid, body) =>
  (await request('POST', topicPath(project, guid) + '/comments', body)).json;
export const viewpoints = (project, guid) => get(topicPath(project, guid) + '/viewpoints');
export const makeViewpoint = async (project, guid, body) =>
  (await request('POST', topicPath(project, guid) + '/viewpoints', body)).json;
export const viewpointPart = async (project, guid, viewpoint, part) =>
  (await get(`${topicPath(project, guid)}/viewpoints/${viewpoint}/${part}`))[part];

export const putRules = async (project, rules) => (await request('PUT', `${COORD}${project}/rules`, { rules })).json;
export const deleteModel = async (project, name) =>
  (await request('DELETE', `${COORD}${project}/models/${name}`)).json;

/** Puts a model; `progress` is called with the part that was sent, 0 to 1. */
export function putModel(project, name, grid, file, progress) {
  return new Promise((done, failed) => {
    const sending = new XMLHttpRequest();
    sending.open('PUT', `${COORD}${project}/models/${name}?grid=${grid}`);
    const header = userHeader();
    for (const field of Object.keys(header)) sending.setRequestHeader(field, header[field]);
    sending.upload.onprogress = event => progress(event.lengthComputable ? event.loaded / event.total : 0);
    sending.onerror = () => failed(new ApiError(0, { code: 'unreachable', message: 'unreachable' }));
    sending.onload = () => {
      const json = read(sending.responseText);
      if (sending.status === 201) done(json);
      else failed(new ApiError(sending.status, json));
    };
    sending.send(file);
  });
}

/** A part of a model's triangles as bytes, or null if this server gives none. */
export async function trianglePart(project, number, name, first, count) {
  const path = `${COORD}${project}/versions/${number}/models/${name}/triangles?first=${first}&count=${count}`;
  const reply = await fetch(path, { headers: Object.assign({ Accept: 'application/octet-stream' }, userHeader()) });
  if (reply.status === 404 || reply.status === 204) return null;
  if (!reply.ok) throw new ApiError(reply.status, read(await reply.text()));
  return reply.arrayBuffer();
}
