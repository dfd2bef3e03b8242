// What npm-types.t has the TypeScript compiler read: uses of the module that are right, and after each
// `@ts-expect-error` one that is wrong.
import { Picked, Silkwaram, Site, WrittenSite, load, loadSync } from 'silkwaram';
import { Answer, AnswerInBytes, Lexicat, command, load as loadCommand } from 'silkwaram/command';

export async function answers(): Promise<Answer> {
  const lexicat: Lexicat = await loadCommand(new Uint8Array(8));
  const { status, output, errors }: Answer = lexicat.command(['pick', new Uint8Array(2), 'en'] as const);
  const bytes: AnswerInBytes = lexicat.bytes(['status'], new Uint8Array(2));
  // @ts-expect-error
  await command('status');
  // @ts-expect-error
  await command(['status'], 7);
  return bytes.isRead && status === 0 ? command(['export'], bytes.output) : command([output, errors]);
}

export async function uses(): Promise<unknown[]> {
  const sw: Silkwaram = await load();
  await load('silkwaram.wasm');
  await load(new Uint8Array(8));
  await load(new URL('https://localhost/silkwaram.wasm'));
  // @ts-expect-error
  await load(7);
  loadSync(new ArrayBuffer(8));
  // (its calls have the types of those in Node)
  const tag: string | null = sw.pick('fr', ['en'] as const, { default: 'en', scheme: 'basic', widen: true });
  const picked: Picked[] = sw.filter('fr', ['en']);
  const site: Site = sw.Site.new('paris');
  const written: WrittenSite = new sw.WrittenSite(site.toBytes());
  return [tag, picked, site.texts('greeting', 'fr'), written.filter('greeting', 'fr'), sw.memory().used, sw.refusal(9)];
}
