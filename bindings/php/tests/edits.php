<?php

/* Two sites that edit apart. It prints what they come to, as in edits.php.txt. */

declare(strict_types=1);

use Silkwaram\{Library, Reader, Refused, Site, Tags};

require __DIR__ . '/../autoload.php';

function line(mixed $value): void
{
    echo json_encode($value, JSON_UNESCAPED_UNICODE), "\n";
}

/** Prints how each call is refused. */
function refused(callable ...$calls): void
{
    foreach ($calls as $call) {
        try {
            $call();
            line('done');
        } catch (Refused $it) {
            line([$it->getCode(), $it->word, $it->offset, $it->row, $it->count, $it->ofSecond, $it->wanted]);
            line($it->getMessage());
        } catch (InvalidArgumentException | JsonException $it) {
            line([get_class($it), $it->getMessage()]);
        }
    }
}

$paris = Site::new('paris');
$paris->put('m', 'en', 'Hello', 5);
$paris->import(['m' => ['fr' => ['Bonjour', 'Salut']], 'n' => []], 6);
$share = clone $paris;
$paris->update(['m' => ['en' => 'Hello']], '{"m":{"en":"Good day"}}', 7);
$tokyo = Site::new('tokyo');
$tokyo->put('m', 'ja', 'x', 8);
$tokyo->take($paris->deltaFor($tokyo->summary()), 8);
$tokyo->delete('m', 'fr', 9);
refused(
    fn () => $paris->take($tokyo->deltaFor($paris->summary()), 8),
    fn () => $paris->update([], ['m' => ['en' => array_fill(0, 65, 'x')]], 9),
    fn () => Tags::pick('fr, e n', ['en']),
    fn () => Tags::pick('e n', ['e n'], fallbacks: 'en=fr, EN=de'),
    fn () => new Reader('en', 'en', offer: 'e n', fallbacks: 'en'),
    fn () => $paris->merge($tokyo, 8),
    fn () => $share->take($paris->deltaFor($share->summary()), checkOwn: true),
    fn () => $share->merge($paris, checkOwn: true)
);
$paris->merge($tokyo, 9, checkOwn: true);
$paris->merge($paris);
line([$share->export(), $paris->export(), $tokyo->missing('fr'), $paris->outdated('en', 'ja')]);
line([$paris->changes($tokyo), $share->changes($paris)]);
$lima = Site::new('lima');
line([$paris->status(), $lima->status()]);
line([$paris->labels(), $lima->labels()]);
$lima->put('m', 'es', 'Hola', 2 ** 40);
line($lima->status());
$lima->put('m', 'x-note', 'ask Anna', 2 ** 40);
line(array_map(fn ($offer) => $lima->text('m', 'x-note', offer: $offer), ['*', 'es', '*', '']));
$table = 'no=nb, gl=es';
line([$lima->text('m', 'gl', fallbacks: $table), $lima->bundle('gl', fallbacks: $table),
    Tags::pick('no, da', ['da', 'NB'], fallbacks: $table),
    (new Reader('no', 'en', fallbacks: $table))->language(['en', 'nb'])]);
line([Tags::pick('fr, en', ['en', 'fr'], offer: '*, fr;q=0'),
    (new Reader('fr', 'en', offer: 'en'))->language(['en', 'fr']),
    array_map(fn ($it) => count(Tags::filter('*', ['en', 'x-a'], offer: $it)), ['*', '', 'x', 'fr'])]);
line([Tags::pick('en', ['en-US'], widen: true), Tags::pick(null, ['en', 'fr'], 'fr'),
    Tags::filter('da, en;q=0.5', ['en', 'da', 'en-GB']), Tags::pick('*', [], 'en')]);
line([$paris->text('m', 'ja'), $paris->filter('m', 'en;q=0.5'), $paris->bundle('ja')]);
refused(
    fn () => $paris->put('m', 'en', 'x', -1),
    fn () => $paris->take('', -1),
    fn () => $paris->import(['m' => 'Hello']),
    fn () => $paris->import(["\0m" => ['en' => 'x']]),
    fn () => $paris->import(['m' => ['en' => "\xff"]]),
    fn () => $paris->put('m', 'en', "x\xff"),
    fn () => Tags::pick('fr', ["en\nfr"]),
    fn () => Site::new('Paris'),
    fn () => Site::open('{}')
);
$again = Site::open($paris->document());
line($again->lookup('m', 'da', 'en'));
// (answers that the first room is too small for)
$long = str_repeat('é', 5000);
$again->put('m', 'de', $long, 10);
line($again->text('m', 'de') === $long);
line(Site::open($again->document())->text('m', 'de') === $long);
// (times and ids that PHP has otherwise)
$again->import(['7' => ['en' => 'seven']], PHP_INT_MAX);
line([$again->status()['last'], $again->text('7', 'en')]);
line(intdiv(Library::loaded()->version(), 100));
