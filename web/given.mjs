// What is given to the page: files and folders by drop or choice, and texts by paste.

const ENDINGS = /\.(?:tml|xml|timeml|evidence|timeline|seconds)$/i;
const HIDDEN = /\/\./; // a folder may be hidden that was given itself

/** Files of a folder that may be documents or evidence, by their names. Others were not meant, and hidden ones neither. */
export function isOfFolder(name) {
  return ENDINGS.test(name) && !HIDDEN.test(name);
}

const byName = (one, other) => (one.name < other.name ? -1 : Number(one.name > other.name));

/** The files of a choice, with their names; of a folder, those that may be documents or evidence, in the order of their names. */
export function chosen(files) {
  const isFolder = [...files].some((file) => file.webkitRelativePath);
  const named = [...files].map((file) => ({ name: file.webkitRelativePath || file.name, file }));
  return isFolder ? named.filter(({ name }) => isOfFolder(name)).sort(byName) : named;
}

/** Whatever of files and folders was dropped, told in lumps as it is found. All has to be taken before anything is waited for. */
export async function dropped(transfer, tell) {
  const items = [...transfer.items].filter(({ kind }) => kind === "file");
  const taken = items.map((item) => ({ file: item.getAsFile(), entry: item.webkitGetAsEntry?.(), handle: item.getAsFileSystemHandle?.() }));
  for (const { file, entry, handle } of taken) {
    const [folder, childrenOf] = handle ? [await handle, inHandle] : [entry, inEntry];
    if (entry?.isDirectory) await walked({ name: entry.name, folder, childrenOf }, tell);
    else if (file) tell([{ name: file.name, file }]);
  }
}

/** The files of a folder and of all folders in it, in the order of their names. */
async function walked(top, tell) {
  const folders = [top];
  while (folders.length > 0) {
    const { name: path, folder, childrenOf } = folders.pop();
    const children = (await childrenOf(folder)).sort(byName);
    const named = children.map((child) => ({ ...child, name: `${path}/${child.name}` }));
    const inside = named.filter(({ isFolder, name }) => isFolder && !HIDDEN.test(name));
    folders.push(...inside.map(({ name, self }) => ({ name, folder: self, childrenOf })).reverse());
    const files = await Promise.all(named.filter(({ isFolder, name }) => !isFolder && isOfFolder(name)).map(opened));
    tell(files.filter(({ file }) => file));
  }
}

/** A child of a folder with its file, which is null if the browser cannot open it. */
async function opened({ name, open }) {
  return { name, file: await open().catch(() => null) };
}

/** What a folder has, as Chromium says it: there a page from the disk cannot read entries. */
async function inHandle(folder) {
  const children = [];
  for await (const [name, self] of folder.entries()) {
    children.push({ name, self, isFolder: self.kind === "directory", open: () => self.getFile() });
  }
  return children;
}

/** What a folder has, as other browsers say it: in lumps, the last of them empty. */
async function inEntry(folder) {
  const reader = folder.createReader();
  const children = [];
  for (;;) {
    const lump = await new Promise((done, failed) => reader.readEntries(done, failed));
    if (lump.length === 0) return children;
    children.push(...lump.map(childOf));
  }
}

function childOf(self) {
  const open = () => new Promise((done, failed) => self.file(done, failed));
  return { name: self.name, self, isFolder: self.isDirectory, open };
}

/** A pasted text as a file, and whether it had halves of characters, in whose place U+FFFD is. */
export function pastedFile(text) {
  return { file: new Blob([text]), hadHalves: /\p{Surrogate}/u.test(text) };
}
