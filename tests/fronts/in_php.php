<?php

/*
 * Asks the package for PHP what asked.py has in a folder, over an open site and a written one.
 *
 * usage: php in_php.php FOLDER
 *
 * The answers go to standard output, as asked.py compares them.
 */

declare(strict_types=1);

use Silkwaram\{Questions, Reader, Site, WrittenSite};

require __DIR__ . '/../../bindings/php/autoload.php';

$document = file_get_contents("$argv[1]/site.json");
$asked = json_decode(file_get_contents("$argv[1]/asked.json"), true);

function answer(Questions $site, array $asked, ?string $header): array
{
    $field = $header === null ? null : iconv('UTF-8', 'ISO-8859-1', $header);
    $reader = new Reader($field, $asked['default'], fallbacks: $asked['fallbacks'] ?? '');
    return [
        'language' => strtolower($reader->language($asked['tags'])),
        'label' => $reader->label($site, 'all')['texts'][0],
        'few' => $reader->label($site, 'some')['texts'][0],
    ];
}

$answers = [];
foreach ([Site::open($document), new WrittenSite($document)] as $site) {
    $of_site = array_map(fn (?string $it) => answer($site, $asked, $it), $asked['headers']);
    if ($answers !== [] && $answers !== $of_site) {
        exit(1);
    }
    $answers = $of_site;
}
echo json_encode(['answers' => $answers]);
