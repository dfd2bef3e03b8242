<?php

/*
 * Asks the document of a file as it is, with its last LF and without, beside the site that is
 * opened of it; and a document as PHP writes it. It prints what they answer, as in asks.php.txt.
 */

declare(strict_types=1);

use Silkwaram\{Questions, Refused, Site, WrittenSite};

require __DIR__ . '/../autoload.php';

function answers(Questions $it, bool $lenient, bool $widen, bool $extended): string
{
    $how = ['lenient' => $lenient, 'extended' => $extended];
    try {
        $answers = [
            $it->lookup('greeting', 'de-CH, en_US', 'en', ...$how, widen: $widen),
            $it->text('news', 'fr', '', 1, ...$how, widen: $widen),
            $it->texts('news', null, 'fr', ...$how, widen: $widen),
            $it->filter('title', 'zh, fr;q=0.5', ...$how),
        ];
    } catch (Refused $refused) {
        return $refused->getMessage();
    }
    return json_encode($answers, JSON_UNESCAPED_UNICODE);
}

$text = file_get_contents($argv[1]);
$open = Site::open($text);
foreach ([$text, rtrim($text)] as $document) {
    $written = new WrittenSite($document);
    foreach (range(0, 7) as $flags) {
        $how = [($flags & 1) > 0, ($flags & 2) > 0, ($flags & 4) > 0];
        if (answers($written, ...$how) !== answers($open, ...$how)) {
            echo 'differs ';
        }
    }
    echo answers($written, true, false, false), "\n";
    $none = [$written->text('news', 'fr', '', 2), $written->lookup('imprint', 'fr')];
    echo json_encode($none), "\n";
}
foreach (['', '{}', 'x', substr($text, 0, -2)] as $none) {
    try {
        new WrittenSite($none);
    } catch (Refused $refused) {
        echo $refused->number, "\n";
    }
}
// (with escapes that Silkwaram does not write, as of a slash)
$ids = ['Abbrechen', "Gr\u{f6}\u{df}e/2", "Schlie\u{df}en", 'zuletzt', "\u{df}", "\u{1f600}"];
$rows = [];
foreach ($ids as $id) {
    foreach (['de', 'en', 'fr'] as $language) {
        $rows[] = [$id, $language, 5, 'paris', count($rows), ["$language $id"]];
    }
}
$document = ['cells' => $rows, 'kind' => 'site', 'site' => 'paris', 'version' => 2];
$written = new WrittenSite(json_encode($document));
$right = array_filter($rows, fn ($row) => $written->text($row[0], $row[1]) === $row[5][0]);
echo count($right), ' of ', count($rows), "\n";
