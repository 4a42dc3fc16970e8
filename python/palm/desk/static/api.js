// The calls of the server. A change is a POST; a refused call is an error with what the server says.

export class Refusal extends Error {
  constructor(status, said) {
    super(said.advice ? `${said.error}: ${said.advice}` : said.error || `status ${status}`);
    this.status = status;
  }
}

async function call(path, options) {
  let response;
  try {
    response = await fetch(`/api/${path}`, { credentials: "same-origin", cache: "no-store", ...options });
  } catch {
    throw new Refusal(0, { error: "palm-desk does not answer: was it ended?" });
  }
  const said = await response.json().catch(() => ({ error: `status ${response.status}` }));
  if (!response.ok) throw new Refusal(response.status, said);
  return said;
}

const words = (query) => new URLSearchParams(query).toString();
const post = (path, body) => call(path, { method: "POST", body: body instanceof Blob ? body : JSON.stringify(body ?? {}) });

export const desk = () => call("desk");
export const open = (scene) => post(`sessions?${words({ scene })}`);
export const upload = (name, file) => post(`sessions?${words({ name })}`, file);
export const whole = (session) => call(`sessions/${session}`);
export const close = (session) => post(`sessions/${session}/close`);
export const send = (session, lines) => post(`sessions/${session}/lines`, { lines });
export const undo = (session) => post(`sessions/${session}/undo`);
export const redo = (session) => post(`sessions/${session}/redo`);
export const why = (session, query) => call(`sessions/${session}/why?${words(query)}`);
export const conflict = (session, query = {}) => call(`sessions/${session}/conflict?${words(query)}`);
export const preferred = (session) => call(`sessions/${session}/preferred`);
export const certificate = (session, query) => post(`sessions/${session}/certificate?${words(query)}`);
export const search = (session, given) => post(`sessions/${session}/search`, given);
export const progress = (session) => call(`sessions/${session}/search`);
export const stop = (session) => post(`sessions/${session}/search/stop`);
export const documentAddress = (session, number) => `/api/sessions/${session}/documents/${number}`;
export const fileAddress = (session) => `/api/sessions/${session}/file`;
