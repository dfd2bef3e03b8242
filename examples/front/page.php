<?php
// A page in the reader's language: php -d ffi.enable=true -S localhost:8080 page.php

declare(strict_types=1);

use Silkwaram\{Reader, WrittenSite};

// (it is there already where PHP has preloaded it)
class_exists(WrittenSite::class) || require __DIR__ . '/../../bindings/php/autoload.php';

$site = new WrittenSite(file_get_contents(getenv('SITE') ?: __DIR__ . '/site.json'));
$reader = new Reader($_SERVER['HTTP_ACCEPT_LANGUAGE'] ?? null, default: 'en');

$label = fn (string $id): ?array => $reader->label($site, $id);

/** Elements of this name with the texts of a label, each marked with its language. */
function elements(string $name, ?array $label): string
{
    $made = '';
    foreach ($label['texts'] ?? [] as $text) {
        $text = htmlspecialchars($text);
        $made .= "<$name lang=\"{$label['language']}\" dir=\"auto\">$text</$name>\n";
    }
    return $made;
}

header('Content-Type: text/html; charset=utf-8');
header('Vary: Accept-Language');
header('Content-Language: ' . ($label('title')['language'] ?? ''));
?>
<!DOCTYPE html>
<meta charset="utf-8">
<title>Silkwaram from PHP</title>
<?= elements('h1', $label('title')) ?>
<?= elements('p', $label('greeting')) ?>
<?= elements('p', $label('news')) ?>
<footer><?= elements('small', $label('imprint')) ?></footer>
