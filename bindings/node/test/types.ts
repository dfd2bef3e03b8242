// What bindings/browser/tests/npm-types.t has the TypeScript compiler read: uses of the package in Node
// that are right, and after each `@ts-expect-error` one that is wrong.
import { Asked, Change, Choice, Label, LanguageMaps, Picked, Refused, Site, Status, WrittenSite } from 'silkwaram';
import { filter, pick, refusal, version } from 'silkwaram';
import { languages } from 'silkwaram/express';

const tag: string | null = pick('fr', ['en'] as const, { default: 'en', scheme: 'basic', lenient: true });
pick(undefined, ['en'], { default: null, widen: true });
const tags: Picked[] = filter('fr', ['en'], { lenient: true });
// @ts-expect-error
filter('fr', ['en'], { widen: true });
// @ts-expect-error
pick('fr', 'en');
// @ts-expect-error
pick('fr', ['en'], { scheme: 'exact' });
// @ts-expect-error
pick('fr', ['en'], { defualt: 'en' });

const site: Site = Site.open(new Uint8Array(2));
const label: Label | null = site.lookup('greeting', null);
const text: string | null = site.text('greeting', 'fr', { place: 1n });
const texts: string[] | null = site.texts('greeting', 'fr');
const choices: Choice[] = site.filter('greeting', 'fr', { offer: null });
const bundle: LanguageMaps = site.bundle('fr', { default: 'en', offer: 'en, fr' });
// @ts-expect-error
site.text('greeting', 'fr', { offer: ['fr'] });
pick('fr', ['en'], { offer: 'fr', fallbacks: 'no=nb' });
filter('fr', ['en'], { offer: 'fr' });
// @ts-expect-error
filter('fr', ['en'], { fallbacks: 'no=nb' });
// @ts-expect-error
site.filter('greeting', 'fr', { default: 'en' });
// @ts-expect-error
site.lookup('greeting');
// @ts-expect-error
Site.open(7);
site.put('greeting', 'fr', 'Bonjour', { now: 5 });
// @ts-expect-error
site.put('greeting', 'fr');
// @ts-expect-error
site.put('greeting', 'fr', 'Bonjour', { now: '5' });
site.delete('greeting', 'fr', { now: 2n ** 63n });
site.importMaps(bundle);
site.importMaps({ greeting: { fr: ['Bonjour', 'Salut'] } });
site.update(site.missing('de'), site.export());
const other: Site = Site.new('tokyo');
site.take(other.deltaFor(site.summary()), { notAfter: Date.now() });
site.merge(other);
// @ts-expect-error
site.merge(site.write());
const bytes: Uint8Array = site.toBytes();
const changes: Change[] = site.changes(other);
const status: Status = site.status();
site.share().close();
site[Symbol.dispose]();

const written: WrittenSite = new WrittenSite(bytes);
const either: Asked[] = [site, written, new WrittenSite('{}')];
const first: (string | null)[] = either.map((it) => it.text('greeting', null, { default: 'en', place: 1 }));
// @ts-expect-error
new WrittenSite();
// @ts-expect-error
new WrittenSite(new ArrayBuffer(2));
// @ts-expect-error
written.put('greeting', 'fr', 'Bonjour');
// @ts-expect-error
site.merge(written);
written.close();

const number = (error: unknown): number | null => (error instanceof Refused ? error.number : null);
const where = (it: Refused): (number | null)[] => [it.offset, it.row, it.count];
const said = (it: Refused): string => (it.ofSecond ? it.message : it.wanted);
const meaning: string | null = refusal(version);
const use = languages({ site, tags: ['en'] });
const req: Parameters<typeof use>[0] = { headers: {} };
use(req, { getHeader: () => undefined, setHeader: () => 0 }, () => {});
const language: string | null | undefined = req.language;
languages({ site: () => written, tags: ['en'], fallbacks: 'no=nb', widen: true, strict: true });
// @ts-expect-error
languages({ site: () => null, tags: ['en'] });
// @ts-expect-error
languages({ tags: ['en'] });
// @ts-expect-error
languages({ site, tags: ['en'], strict: 'yes' });

// (the types of express take their requests from here)
const greet = (it: Express.Request): string => it.label(it.language ?? 'none')?.texts[0] ?? '';
// @ts-expect-error
const unknown = (it: Express.Request) => it.languages;

export { bundle, bytes, changes, choices, first, greet, label, language, meaning, number, said, status, tag, tags, text,
  texts, where };
