// Leads rollup to the files of installed packages, as their `exports` do it for pages.
import { readFileSync } from 'node:fs';
import { resolve } from 'node:path';

const CONDITIONS = ['browser', 'import', 'default'];

// The path that the first condition which is met leads to.
function pathOf(it) {
  if (typeof it === 'string') return it;
  const met = Object.keys(it ?? {}).find((name) => CONDITIONS.includes(name));
  return met === undefined ? null : pathOf(it[met]);
}

export default () => ({
  name: 'packages',
  resolveId(asked, by) {
    // (the program itself is asked for by none)
    if (by === undefined || /^[./]/.test(asked)) return null;
    const [name, ...path] = asked.split('/');
    const folder = resolve('node_modules', name);
    const { exports } = JSON.parse(readFileSync(`${folder}/package.json`, 'utf8'));
    const found = pathOf(exports[['.', ...path].join('/')]);
    return found === null ? null : resolve(folder, found);
  },
});
