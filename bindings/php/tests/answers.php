<?php

/*
 * Asks the package what the command was asked, and compares. It prints a line, and ends with 1 if
 * something differs.
 *
 *     answers.php questions FILE     what bindings/browser/tests/questions.py prints
 *     answers.php edits FILE         what edits.py beside it prints
 */

declare(strict_types=1);

use Silkwaram\{Refused, Site, Tags, WrittenSite};

require __DIR__ . '/../autoload.php';

/** Whole numbers from here on are texts with an `n`, as JavaScript has them. */
const FIRST_BIGINT = 2 ** 53;

/** One text for equal values, whatever the order of their members. */
function canonical(mixed $value): string
{
    return json_encode(ordered($value, ''), JSON_UNESCAPED_UNICODE | JSON_THROW_ON_ERROR);
}

function ordered(mixed $value, string|int $name): mixed
{
    if (is_array($value)) {
        foreach ($value as $inner => $it) {
            $value[$inner] = ordered($it, $inner);
        }
        array_is_list($value) || ksort($value, SORT_STRING);
        return $value;
    }
    // (a time or a count beyond PHP_INT_MAX is a text)
    $is_large = is_int($value) && $value >= FIRST_BIGINT
        || in_array($name, ['time', 'count'], true) && is_string($value) && ctype_digit($value);
    return $is_large ? "{$value}n" : $value;
}

/** What a call answers, or by what it is refused. */
function answered(callable $call): mixed
{
    try {
        return $call();
    } catch (Refused $it) {
        return [
            'number' => $it->number,
            'offset' => $it->offset,
            'row' => $it->row,
            'count' => $it->count,
            'ofSecond' => $it->ofSecond,
        ];
    }
}

/** The options of a question, as PHP names them. */
function named(array $options, string $call): array
{
    $named = ['extended' => $options['scheme'] === 'extended', 'lenient' => $options['lenient']];
    if (isset($options['place'])) {
        $named['place'] = (int) min($options['place'], PHP_INT_MAX);
    }
    $is_filter = in_array($call, ['filter', 'filterTags'], true);
    $others = ['offer' => 0] + ($is_filter ? [] : ['default' => 0, 'widen' => 0, 'fallbacks' => 0]);
    return $named + array_intersect_key($options, $others);
}

function asked(Site|WrittenSite|null $site, string $call, array $words): mixed
{
    $options = named(array_pop($words), $call);
    return match ($call) {
        'pick' => Tags::pick(...$words, ...$options),
        'filterTags' => Tags::filter(...$words, ...$options),
        default => $site->$call(...$words, ...$options),
    };
}

/** What differs of the questions to readers' calls, and how many there are of each. */
function questions(array $questions): array
{
    $site = null;
    [$faults, $calls] = [[], []];
    foreach ($questions as [$question, $wanted]) {
        $words = $question;
        $call = array_shift($words);
        $asks = ['' => fn () => asked($site, $call, $words)];
        if ($call === 'open') {
            // (one that is refused leaves the old one)
            $asks = ['' => function () use (&$site, $words) {
                $site = Site::open(base64_decode($words[0]));
            }];
        } elseif (in_array($call, ['lookup', 'text', 'filter'], true)) {
            $written = new WrittenSite($site->document());
            $asks['written '] = fn () => asked($written, $call, $words);
        }
        foreach ($asks as $kind => $ask) {
            $calls["$kind$call"] = ($calls["$kind$call"] ?? 0) + 1;
            $got = canonical(answered($ask));
            if ($got !== canonical($wanted)) {
                $lines = [$kind . canonical($question), canonical($wanted), $got];
                $faults[] = implode("\n  ", $lines);
            }
        }
    }
    return [$faults, $calls];
}

/** What a step of two sites makes, and what it has to make; null if PHP has no such time. */
function step(array $sites, array $step): ?array
{
    [$own, $other] = [$sites[$step['site']], $sites[1 - $step['site']]];
    [$call, $words] = [$step['call'] === 'importMaps' ? 'import' : $step['call'], $step['words']];
    $options = is_array(end($words)) ? array_pop($words) : [];
    foreach (array_intersect_key($options, ['now' => 0, 'notAfter' => 0]) as $name => $time) {
        if ((string) (int) $time !== $time) {
            return null;
        }
        $options[$name] = (int) $time;
    }
    if (in_array($call, ['merge', 'changes'], true)) {
        array_unshift($words, $other);
    }
    $answer = answered(fn () => $own->$call(...$words, ...$options));
    if (!isset($step['document'])) {
        return [$answer, $step['wanted']];
    }
    return [[$answer, $own->document()], [$step['refused'], $step['document']]];
}

/** What differs of edits and exchanges, and how many there are of each. */
function edits(array $sequences): array
{
    [$faults, $calls] = [[], []];
    foreach ($sequences as $steps) {
        $sites = [Site::new('paris'), Site::new('tokyo')];
        foreach ($steps as $it) {
            $made = step($sites, $it);
            $call = $made === null ? 'too late for PHP' : $it['call'];
            $calls[$call] = ($calls[$call] ?? 0) + 1;
            if ($made === null) {
                continue 2;
            }
            [$got, $wanted] = array_map('canonical', $made);
            if ($got !== $wanted) {
                $faults[] = substr(canonical($it), 0, 300) . "\n  $wanted\n  $got";
                continue 2;
            }
        }
    }
    return [$faults, $calls];
}

[, $what, $file] = $argv;
$given = json_decode(file_get_contents($file), true, 512, JSON_BIGINT_AS_STRING);
[$faults, $calls] = $what === 'edits' ? edits($given) : questions($given);
foreach (array_slice($faults, 0, 10) as $it) {
    echo substr($it, 0, 2000), "\n";
}
ksort($calls);
$each = implode(', ', array_map(fn ($call, $count) => "$count $call", array_keys($calls), $calls));
echo "$each; ", count($faults), " differ from the command's\n";
exit($faults === [] && $given !== [] ? 0 : 1);
