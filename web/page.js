// The page: asks the worker, and draws what it answers.
'use strict';
(() => {
  const $ = (id) => document.getElementById(id);
  const count = (number) => number.toLocaleString('en');
  const range = (from, to) => `${count(from)}–${count(to)}`;
  const KINDS = ['event', 'transaction', 'session', 'sessions', 'attachment', 'check_in', 'user_report', 'replay_recording', 'log',
    'trace_metric', 'client_report'];
  const kindOf = (name) => (name === 'header line' ? 'header' : name === 'not read' ? 'unread' : String(KINDS.indexOf(name)));
  const ROWS = 100; // of a table at a time, as in the worker

  function make(tag, { style, data, ...given } = {}, ...children) {
    const it = document.createElement(tag);
    Object.assign(it.style, style);
    Object.assign(it.dataset, data);
    for (const [name, value] of Object.entries(given)) name in it ? (it[name] = value) : it.setAttribute(name, value);
    it.append(...children.flat(Infinity).filter((child) => child !== null && child !== undefined));
    return it;
  }
  const code = (text) => make('code', {}, text);
  const button = (label, onclick, given) => make('button', { type: 'button', onclick, ...given }, label);
  const section = (id, title, ...children) =>
    make('section', { id, 'aria-labelledby': `${id}-head` }, make('h2', { id: `${id}-head` }, title), ...children);
  function table(heads, rows) {
    const row = (cells, tag, given) => make('tr', {}, cells.map((cell) => make(tag, given, cell)));
    return make('div', { className: 'wide', tabIndex: 0, role: 'group', 'aria-label': heads.join(', ') }, make('table', {},
      make('thead', {}, row(heads, 'th', { scope: 'col' })), make('tbody', {}, rows.map((cells) => row(cells, 'td')))));
  }
  const fields = (it) => make('dl', {}, Object.entries(it).map(([name, value]) => [make('dt', {}, name), make('dd', {}, value)]));
  const swatch = (name) => make('i', { className: 'swatch', data: { kind: kindOf(name) } });
  const more = (shown, all) => (all > shown ? make('p', {}, `The first ${count(shown)} of ${count(all)}.`) : null);
  const pre = ({ pieces, left }) => make('pre', { tabIndex: 0 },
    pieces.map((it) => (it.marked ? make('mark', {}, it.text) : it.text)), left > 0 ? `\n… ${count(left)} more bytes` : null);
  // A section of a list, if it isn't empty.
  const list = (id, title, { rows, all }, draw, ...rest) => (all ? section(id, title, draw(rows), more(rows.length, all), ...rest) : null);

  // ---- the worker

  let worker = null, waiting = new Map(), last = 0;
  const ask = (name, given) => new Promise((resolve, reject) => {
    waiting.set(++last, { resolve, reject });
    worker.postMessage({ id: last, name, given });
  });
  async function start() {
    worker = new Worker(URL.createObjectURL(new Blob([$('worker').textContent], { type: 'text/javascript' })));
    waiting = new Map();
    worker.onmessage = ({ data: { id, answer, error } }) => {
      const { resolve, reject } = waiting.get(id);
      waiting.delete(id);
      error === undefined ? resolve(answer) : reject(new Error(error));
    };
    worker.onerror = ({ message }) => waiting.forEach((it) => it.reject(new Error(message)));
    $('version').textContent = await ask('start', $('module').textContent);
    ['show', 'example'].forEach((id) => { $(id).disabled = false; });
    say('ready', 'Ready.');
  }
  async function stop() {
    worker.terminate();
    waiting.forEach((it) => it.reject(new Error('Stopped.')));
    await start();
  }
  function say(state, text) {
    document.body.dataset.state = state;
    $('status').textContent = text;
  }
  // Tells for how long the worker has been at it, not too often, since it is read out; and lets it be stopped.
  async function during(text, work) {
    const began = Date.now(), tell = () => say('reading', `${text} … ${Math.round((Date.now() - began) / 1000)} s`);
    say('reading', `${text} …`);
    const timers = [setInterval(tell, 5000), setTimeout(() => { $('stop').hidden = false; }, 500)];
    try {
      return await work();
    } finally {
      timers.forEach(clearTimeout);
      $('stop').hidden = true;
    }
  }

  // ---- what is shown

  const verdict = ({ accepted, error, faults: { all } }) => section('verdict', accepted ? 'Accepted' : 'Refused',
    accepted ? null : make('p', {}, `${error}; ${all === 1 ? 'one fault' : `${count(all)} faults`}`));

  function layout({ bytes, bar }) {
    const label = bar.slice(0, 20).map((it) => `${it.name} ${range(it.start, it.end)}${it.accepted ? '' : ', refused'}`).join('; ');
    const segment = (it) => make('span', {
      title: `${it.count > 1 ? `${count(it.count)} items: ` : ''}${it.name}, bytes ${range(it.start, it.end)}`,
      className: it.accepted ? '' : 'refused', data: { kind: kindOf(it.name) }, style: { flexGrow: String(it.end - it.start) },
      onclick: () => it.item !== undefined && choose(it.item),
    });
    const names = [...new Set(bar.map((it) => it.name))].map((it) => make('span', {}, swatch(it), it));
    return section('layout', `Layout: ${count(bytes)} bytes`, make('div', { id: 'bar', role: 'img', 'aria-label': label }, bar.map(segment)),
      make('p', { id: 'legend' }, names, make('span', {}, make('i', { className: 'swatch refused' }), 'refused')));
  }

  function faultRow(it) {
    const at = it.from ?? it.at ?? it.start, to = it.to ?? at + 1;
    const misfit = it.path === undefined ? it.error : `wanted ${it.wanted}, found ${it.found} ${it.value}`.trim();
    const show = button(count(at), async () => $('fault').replaceChildren(pre(await ask('around', [at, to]))), { title: 'Show these bytes' });
    return [it.item === null ? 'header line' : `${it.item + 1} ${it.type}`.trim(), show, code(it.path ?? ''),
      it.expected === undefined ? misfit : `no JSON: expected ${it.expected}`];
  }
  const faults = ({ faults: it }) => list('faults', 'Faults', it, (rows) => table(['Item', 'At byte', 'Path', 'Why'], rows.map(faultRow)),
    make('div', { id: 'fault', 'aria-live': 'polite' }));

  const header = (it) => section('header', 'Envelope header', fields({ ...it.header, bytes: range(0, it.header_length) }));

  const items = (it) => section('items', `Items: ${count(it.items)}`, make('div', { id: 'rows' }), make('div', { id: 'item', 'aria-live': 'polite' }));
  const itemRow = (it, index) => [String(index + 1), [swatch(it.type), button(it.type, () => choose(index), { data: { item: index } })],
    range(it.header_start, it.header_start + it.header_length), range(it.payload_start, it.payload_start + it.payload_length),
    count(it.payload_length), make('b', { className: it.accepted ? 'good' : 'bad' }, it.accepted ? 'accepted' : 'refused')];
  async function turn(from, all) {
    const rows = await ask('rows', from);
    const part = make('p', {}, `Items ${count(from + 1)} to ${count(from + rows.length)} `,
      button('Previous', () => turn(from - ROWS, all), { disabled: from === 0 }), ' ',
      button('Next', () => turn(from + ROWS, all), { disabled: from + rows.length >= all }));
    $('rows').replaceChildren(all > ROWS ? part : '',
      table(['#', 'Type', 'Header', 'Payload', 'Bytes', 'Reads'], rows.map((it, at) => itemRow(it, from + at))));
  }
  async function choose(index) {
    const it = await ask('item', index);
    for (const row of document.querySelectorAll('[data-item]')) row.setAttribute('aria-pressed', String(row.dataset.item === String(index)));
    $('item').replaceChildren(make('h3', {}, `Item ${count(index + 1)}: ${it.type}`), make('h4', {}, 'Header'), pre(it.header),
      make('h4', {}, 'Payload'), pre(it.payload));
  }

  const frame = (it) => [it.function, it.filename, String(it.lineno ?? '')];
  const exception = (it) => [make('h4', {}, `${it.type}: ${it.value ?? ''}`),
    it.frames ? table(['Function', 'File', 'Line'], [...it.frames].reverse().map(frame)) : null];
  const event = ({ item, exceptions, ...rest }) => [make('h3', {}, `Item ${count(item + 1)}`), fields(rest), exceptions.map(exception)];
  const events = (it) => list('events', 'Events', it.events, (rows) => rows.map(event));

  const milliseconds = (nanos) => `${(Number(nanos) / 1e6).toLocaleString('en', { maximumFractionDigits: 3 })} ms`;
  function transaction({ item, name, nanos, spans, all, ...rest }) {
    const above = new Map(spans.map((it) => [it.span_id, it.parent_span_id]));
    const depth = (id, most) => (most > 0 && above.has(id) ? 1 + depth(above.get(id), most - 1) : 0);
    const lines = [{ op: 'transaction', description: name, offset: 0, nanos }, ...spans];
    const end = Math.max(1, ...lines.map((it) => Number(it.offset) + Number(it.nanos))), part = (it) => `${(100 * Number(it)) / end}%`;
    const line = (it) => [
      make('span', { style: { paddingLeft: `${depth(it.span_id, 8) * 0.8}em` } }, make('b', {}, it.op ?? 'span'), ` ${it.description ?? ''}`),
      milliseconds(it.offset), milliseconds(it.nanos),
      make('div', { className: 'lane' }, make('i', { style: { marginLeft: part(it.offset), width: part(it.nanos) } }))];
    return [make('h3', {}, `Item ${count(item + 1)}: ${name ?? ''}`), fields(rest),
      make('div', { className: 'fall' }, table(['Span', 'Start', 'Length', 'Time'], lines.map(line))), more(spans.length, all)];
  }
  const transactions = (it) => list('transactions', 'Transactions', it.transactions, (rows) => rows.map(transaction));

  function losses(it) {
    const sums = Object.entries(it.losses).map(([name, sum]) => [name, count(sum)]);
    return section('losses', 'Lost if all items are dropped', sums.length ? table(['Category', 'Quantity'], sums) : make('p', {}, 'Nothing.'));
  }

  const REPAIRS = ['became an RFC 3339 string', 'became a string', 'type of an attribute that became a string', 'became an empty array',
    'taken out', 'event id of the envelope header', 'length corrected', 'item left out'];
  const CHOICES = [['2', 'all'], ['1', 'of form alone, so that nothing is lost'], ['0', 'none: what doesn’t read is left out']];
  const note = (it) => [String(it.item + 1), range(it.start, it.end), code(it.path), REPAIRS[it.repair], code(it.instead.slice(0, 200))];
  // Writes the normal form; of a refused envelope that of what can be read, with a note of each change.
  async function write(accepted) {
    const it = await ask('normal', Number($('repairs')?.value ?? 2));
    if (it.error) return $('made').replaceChildren(make('p', {}, it.error));
    const save = button('Save', async () => make('a', { href: URL.createObjectURL(await ask('save')), download: 'normal.envelope' }).click());
    const notes = [table(['Item', 'Bytes', 'Path', 'Change', 'Stands there now'], it.notes.rows.map(note)), more(it.notes.rows.length, it.notes.all)];
    $('made').replaceChildren(make('div', {}, accepted ? null : notes,
      make('p', {}, `${count(it.length)} bytes${it.same ? ', the same as what was read' : ''} `, save), pre({ pieces: [{ text: it.begin }], left: it.left })));
  }
  function normal({ accepted }) {
    const options = CHOICES.map(([value, name]) => make('option', { value }, name));
    const choice = make('p', {}, make('label', { htmlFor: 'repairs' }, 'Repairs: '), make('select', { id: 'repairs', onchange: () => write(false) }, options));
    return section('normal', accepted ? 'Normal form' : 'Mended', accepted ? null : choice, make('div', { id: 'made', 'aria-live': 'polite' }));
  }

  async function take(blob, name) {
    if (document.body.dataset.state === 'reading') await stop();
    $('shown').hidden = true;
    try {
      const it = await during(`Reading ${name}, ${count(blob.size)} bytes`, () => ask('read', blob));
      const parts = [verdict, layout, faults, header, items, events, transactions, losses, normal].map((part) => part(it));
      $('shown').replaceChildren(...parts.filter((part) => part !== null));
      $('shown').hidden = false;
      if (it.items) await turn(0, it.items);
      const told = `${it.accepted ? 'Accepted' : 'Refused'}: ${name}${it.how.length ? `, unpacked from ${it.how.join(', then ')}` : ''}.`;
      await during(`${told} Writing the normal form`, () => write(it.accepted));
      say('shown', told);
    } catch (error) {
      say('failed', error.message);
    }
  }

  const takeFile = ([file]) => file && take(file, file.name), over = (is) => $('drop').classList.toggle('over', is);
  const unable = (error) => say('unable', `This browser can’t run the library: ${error.message}`);
  $('show').onclick = () => take(new Blob([$('text').value]), 'what was pasted');
  $('example').onclick = () => take(new Blob([$('sample').textContent]), 'the example');
  $('stop').onclick = () => stop().catch(unable);
  $('file').onchange = () => takeFile($('file').files);
  addEventListener('dragover', (event) => { event.preventDefault(); over(true); });
  addEventListener('dragleave', () => over(false));
  addEventListener('drop', (event) => {
    event.preventDefault();
    over(false);
    takeFile(event.dataTransfer.files);
  });
  start().catch(unable);
})();
