// What comes in: files that are dropped, or chosen, or lie in a folder; each with its path, and
// with its handle where the browser has one, by which it is read again.

/**
 * A file that comes in, with its path in the folder that was handed in, or else its name. One that
 * can't be read has a path alone, and so has a folder in which nothing is: a slash ends that.
 * @typedef {{ path: string, file?: File, handle?: any }} Given
 */

/**
 * Files as a button hands them over; of a folder none that systems hide, which begin with a point.
 * @returns {Given[]}
 */
export const givenBy = (/** @type {Iterable<File>} */ files) =>
  Array.from(files, file => ({ file, path: file.webkitRelativePath || file.name }))
    .filter(({ path }) => !path.includes('/.'));

/** All that is in a folder, which hands it out some at a time. */
async function entriesIn(/** @type {any} */ folder) {
  const reader = folder.createReader(), all = [];
  for (;;) {
    /** @type {any[]} */
    const some = await new Promise((done, failed) => reader.readEntries(done, failed));
    if (some.length === 0) return all;
    all.push(...some);
  }
}

/** All that is in a folder, by its handle. */
async function handlesIn(/** @type {any} */ folder) {
  const all = [];
  for await (const one of folder.values()) all.push(one);
  return all;
}

/**
 * The file of a handle, as it is now.
 * @param {any} handle
 * @param {string} path
 * @returns {Promise<Given>}
 */
export async function givenOf(handle, path) {
  try {
    return { path, file: await handle.getFile(), handle };
  } catch {
    return { path, handle };
  }
}

/**
 * The files of what is a file or a folder, as a browser has it: as a handle or an entry.
 * @param {any} one
 * @param {string} [before] the path of the folder in which it is
 * @returns {Promise<Given[]>}
 */
async function filesOfPath(one, before = '') {
  const path = before + one.name;
  if (one.kind === 'file') return [await givenOf(one, path)];
  if (one.isFile)
    return [{ path, file: await new Promise(done => one.file(done, () => done(undefined))) }];
  const inside = one.kind ? await handlesIn(one) : await entriesIn(one), all = [];
  inside.sort((part, other) => part.name < other.name ? -1 : 1);
  for (const part of inside)
    if (!part.name.startsWith('.')) all.push(...await filesOfPath(part, `${path}/`));
  return all.length > 0 || before ? all : [{ path: `${path}/` }];
}

/** What ends the name of a file, and of hardly any folder. */
const ENDING = /\.[a-z]\w*$/i;

/** Of so many things at most the handles of files are asked for: each of them holds the window. */
const MOST_HANDLES = 200;

/**
 * What is dropped. The browser tells it only as long as it is, so all is asked for at once: for an
 * entry, which takes long, only where there is no handle, or where that may be refused for a folder.
 * Of very many files, which are none of them read again, no handle is asked for.
 * @param {DataTransfer} transfer
 * @returns {Promise<Given[]>}
 */
export async function dropped(transfer) {
  const items = /** @type {any[]} */ ([...transfer.items]).filter(({ kind }) => kind === 'file');
  const isFew = items.length <= MOST_HANDLES;
  const asked = items.map(item => {
    const file = item.getAsFile(), isFile = item.getAsFileSystemHandle && ENDING.test(file?.name);
    return {
      file, entry: isFile ? null : item.webkitGetAsEntry?.(),
      handle: isFew || !isFile
        ? item.getAsFileSystemHandle?.().catch(/** @type {() => any} */ (() => null)) : null,
    };
  });
  /** @type {Given[]} */
  const all = [];
  for (const { file, entry, handle } of asked) {
    const one = await handle ?? (entry?.isDirectory ? entry : null);
    if (one) all.push(...await filesOfPath(one).catch(() => [{ path: `${one.name}/` }]));
    else if (file) all.push({ path: file.name, file });
  }
  return all;
}
