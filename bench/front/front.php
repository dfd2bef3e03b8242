<?php
// Nanoseconds of processor time of a question from PHP. usage: front.php SITE.json
// SILKWARAM_LIBRARY names the library.

use Silkwaram\{Site, Tags};

require __DIR__ . '/../../bindings/php/autoload.php';

const FIELD = 'da, en-GB;q=0.8, en;q=0.7';
const TAGS = ['en', 'fr', 'de', 'es', 'it', 'pt-BR', 'ja', 'zh-Hant'];
// (of 20 elements)
const TABLE = 'no=nb, nn=nb, da=nb, iw=he, in=id, zh-TW=zh-Hant, zh-HK=zh-Hant-HK, zh-MO=zh-Hant-HK, zh-CN=zh-Hans, '
    . 'zh-SG=zh-Hans, en-AU=en-001, en-NZ=en-001, en-IN=en-001, en-001=en-GB, en=en-US, es-MX=es-419, es-AR=es-419, '
    . 'pt-AO=pt-PT, pt-MZ=pt-PT, sr-ME=sr-Latn';

/** The processor time of this process. */
function now(): float
{
    $used = getrusage();
    $microseconds = $used['ru_utime.tv_usec'] + $used['ru_stime.tv_usec'];
    return 1e9 * ($used['ru_utime.tv_sec'] + $used['ru_stime.tv_sec']) + 1e3 * $microseconds;
}

function measure(string $what, callable $call, int $calls): void
{
    $least = INF;
    for ($round = 0; $round < 5; $round++) {
        $start = now();
        for ($at = 0; $at < $calls; $at++) {
            $call();
        }
        $least = min($least, (now() - $start) / $calls);
    }
    printf("| %s | %.0f |\n", $what, $least);
}

if (extension_loaded('ffi')) {
    $site = Site::open(file_get_contents($argv[1]));
    measure('`sw_pick` from PHP, by FFI', fn () => Tags::pick(FIELD, TAGS), 20000);
    $call = fn () => Tags::pick(FIELD, TAGS, fallbacks: TABLE);
    measure('`sw_pick` from PHP, by FFI, by a table of 20 fallbacks', $call, 20000);
    $call = fn () => $site->lookup('message-777', 'de-CH, fr;q=0.5', 'en');
    measure('`sw_site_lookup` from PHP, by FFI, 16,000 cells', $call, 20000);
} else {
    fwrite(STDERR, "front.php: PHP has no FFI\n");
}
if (extension_loaded('intl')) {
    $call = fn () => Locale::lookup(TAGS, Locale::acceptFromHttp(FIELD), true, 'en');
    measure("PHP's `Locale::acceptFromHttp` and `Locale::lookup`", $call, 2000);
} else {
    fwrite(STDERR, "front.php: PHP's intl is not installed\n");
}
