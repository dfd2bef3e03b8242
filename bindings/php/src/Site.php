<?php

declare(strict_types=1);

namespace Silkwaram;

use FFI\CData;
use InvalidArgumentException;
use JsonException;

/**
 * A site that is open: it is asked, edited, and exchanges edits with other sites.
 *
 * `Site::open` opens it and `Site::new` makes it. It is freed when nothing refers to it any more.
 * A clone is one more site of the same state, which it keeps while this one is edited. Edit by one
 * of them: two that both edit would be two sites of one name.
 *
 * Edits change the open site alone. `document` gives what is to be kept of it.
 *
 * A time counts from 0, by custom in milliseconds since 1970. The time of an edit is that of the
 * clock if it is null.
 *
 * Language maps are labels by message and language, as `['greeting' => ['fr' => 'Bonjour']]`. A
 * label of several texts is a list of them. An array that PHP makes has an integer for a message
 * like `7`.
 *
 * A call that is refused leaves the site as it was. Only if `take` or `merge` is refused by 26
 * (out of memory), each label is as it was or as it was to be, and the same call again makes the
 * rest.
 */
final class Site extends Questions
{
    protected const CALLS = 'sw_site_';

    private function __construct()
    {
        $this->library = Library::loaded();
        $this->held = $this->library->handle();
    }

    /**
     * The site that a document holds. It may come from strangers, since all of it is tested.
     *
     * @throws Refused What is no site document (18 to 21, 27, 28), and a field of a row (1 to 4,
     *     10 to 12).
     */
    public static function open(string $document): self
    {
        $site = new self();
        $site->library->act('sw_site_open', $document, $site->held);
        return $site;
    }

    /**
     * The empty site of a name, which no other site may have.
     *
     * @param string $name 1 to 16 bytes of a to z, 0 to 9 and `-`.
     * @throws Refused The name (27).
     */
    public static function new(string $name): self
    {
        $site = new self();
        $site->library->act('sw_site_new', $name, $site->held);
        return $site;
    }

    public function __destruct()
    {
        $this->library->free($this->held);
    }

    public function __clone()
    {
        $shared = $this->held;
        // (of its own before the share, so that the site of the other is not freed if that fails)
        $this->held = $this->library->handle();
        $this->library->share($shared, $this->held);
    }

    /**
     * All labels of one reader: of each message the one that `lookup` finds. To keep them for
     * other readers, pick a tag first, and ask for that tag.
     *
     * @return array<array<string, string|list<string>>> Language maps.
     * @throws Refused The default (1 to 4), the offer (8, 9), the fallbacks (8, 31), the field
     *     (8, 9).
     */
    public function bundle(
        ?string $field,
        string $default = '',
        bool $lenient = false,
        bool $widen = false,
        bool $extended = false,
        string $offer = '',
        string $fallbacks = ''
    ): array {
        $flags = Library::asked($lenient, $widen, $extended);
        $rules = $this->library->rules($offer, $fallbacks);
        return $this->maps('bundle', $rules, $flags, $field ?? '*', $default);
    }

    // What a translator or an editor asks.

    /**
     * All labels.
     *
     * @return array<array<string, string|list<string>>> Language maps.
     */
    public function export(): array
    {
        return $this->maps('export');
    }

    /**
     * The messages that have a label, but none in just this language, with all their labels.
     *
     * @return array<array<string, string|list<string>>> Language maps.
     * @throws Refused The language (1 to 4).
     */
    public function missing(string $lang): array
    {
        return $this->maps('missing', $lang);
    }

    /**
     * The messages whose label in `$source` is later than that in `$lang`, with all their labels.
     *
     * @return array<array<string, string|list<string>>> Language maps.
     * @throws Refused The language, then the source (1 to 4).
     */
    public function outdated(string $lang, string $source): array
    {
        return $this->maps('outdated', $lang, $source);
    }

    /**
     * The cells that differ in another site, in ascending order of ids and languages. In `before`
     * is the cell of this site and in `after` that of the other; null if it has none.
     *
     * @return list<array{id: string, language: string, before: array|null, after: array|null}> A
     *     cell is an `array{time: int|string, site: string, count: int|string, texts:
     *     list<string>|null}`: the stamp of its last edit, and its texts, or null if the label was
     *     deleted. A number beyond PHP_INT_MAX is a string.
     */
    public function changes(self $after): array
    {
        $other = clone $after;
        $lines = $this->library->ask('sw_site_changes', $this->held, $other->held);
        $changes = [];
        foreach (array_slice(explode("\n", $lines), 1, -1) as $line) {
            $row = json_decode($line, true, 512, JSON_BIGINT_AS_STRING);
            $changes[] = [
                'id' => $row[0],
                'language' => $row[1],
                'before' => self::cell($row[2]),
                'after' => self::cell($row[3]),
            ];
        }
        return $changes;
    }

    /**
     * The name of the site, how many cells it has and how many of them a label, and its latest
     * stamp.
     *
     * @return array{site: string, cells: int, labels: int, last: array|null} The stamp is an
     *     `array{time: int|string, site: string, count: int|string}`, and null in an empty site. A
     *     number beyond PHP_INT_MAX is a string.
     */
    public function status(): array
    {
        // (`site NAME cells N labels N last TIME NAME COUNT`, or `last none`)
        $words = explode(' ', rtrim($this->library->ask('sw_site_status', $this->held), "\n"));
        return [
            'site' => $words[1],
            'cells' => (int) $words[3],
            'labels' => (int) $words[5],
            'last' => $words[7] === 'none' ? null : [
                'time' => self::whole($words[7]),
                'site' => $words[8],
                'count' => self::whole($words[9]),
            ],
        ];
    }

    /**
     * How many labels each language has, in rising order of the languages.
     *
     * @return array<string, int>
     */
    public function labels(): array
    {
        $counts = [];
        $lines = explode("\n", rtrim($this->library->ask('sw_site_labels', $this->held), "\n"));
        foreach (array_slice($lines, 1) as $line) {
            [$language, $count] = explode(' ', $line);
            $counts[$language] = (int) $count;
        }
        return $counts;
    }

    /** The document of the site, which `open` and the command `lexicat` read. */
    public function document(): string
    {
        return $this->library->ask('sw_site_write', $this->held);
    }

    // Edits.

    /**
     * Puts a label of one text, of at most 65,535 bytes, or replaces the one that is there.
     *
     * @throws Refused The id (10), the language (1 to 4), the text (18 if it is not UTF-8, 11 if
     *     it is too long); 14 if the site has so late a stamp that none comes after it.
     * @throws InvalidArgumentException A time below 0.
     */
    public function put(string $id, string $lang, string $text, ?int $now = null): void
    {
        $this->library->act('sw_site_put', $this->held, self::moment($now), $id, $lang, $text);
    }

    /**
     * Deletes a label. The deletion is kept, so that no older label comes back.
     *
     * @throws Refused As by `put`, without the text.
     * @throws InvalidArgumentException A time below 0.
     */
    public function delete(string $id, string $lang, ?int $now = null): void
    {
        $this->library->act('sw_site_delete', $this->held, self::moment($now), $id, $lang);
    }

    /**
     * Puts each label of language maps: all of them or none. One that is there already is put
     * anew.
     *
     * @param array|string $maps Language maps, or their JSON text.
     * @throws Refused What are no language maps (18 to 20, 22), a label of them (1 to 4, 10 to
     *     12); 14 as by `put`.
     * @throws InvalidArgumentException A time below 0.
     * @throws JsonException Maps that JSON does not have, as of texts that are not UTF-8.
     */
    public function import(array|string $maps, ?int $now = null): void
    {
        $this->library->act('sw_site_import', $this->held, self::moment($now), self::json($maps));
    }

    /**
     * Makes the edits by which old language maps became new ones, and no others: all or none. A
     * label that only the old ones have is deleted. A label that is the same in both is not
     * touched, so it keeps what others edited since.
     *
     * @param array|string $old Language maps, or their JSON text.
     * @param array|string $new
     * @throws Refused As by `import`: the old ones, then the new ones (`ofSecond`).
     * @throws InvalidArgumentException A time below 0.
     * @throws JsonException As by `import`.
     */
    public function update(array|string $old, array|string $new, ?int $now = null): void
    {
        [$at, $from, $to] = [self::moment($now), self::json($old), self::json($new)];
        $this->library->act('sw_site_update', $this->held, $at, $from, $to);
    }

    // Exchange.

    /**
     * The summary by which another site finds what this one lacks.
     *
     * @param bool $labels Gives a digest of each label too. Then taking the delta refuses two
     *     labels of one stamp (13), as `merge` does.
     */
    public function summary(bool $labels = false): string
    {
        $flags = $labels ? Library::LABELS : 0;
        return $this->library->ask('sw_site_summary', $this->held, $flags);
    }

    /**
     * The delta for the owner of a summary: the cells that they lack, for their `take`.
     *
     * @throws Refused What is no summary (18 to 21, 27, 28), and a field of a row (1 to 4, 10).
     */
    public function deltaFor(string $summary): string
    {
        return $this->library->ask('sw_site_delta', $this->held, $summary);
    }

    /**
     * Joins a delta for this site. It may come twice, or late.
     *
     * @param int $notAfter The latest time that is taken, such as a day ahead of the clock. 0 is
     *     no limit.
     * @param bool $checkOwn Refuses an edit that this site made and lacks: it shows that the site
     *     was put back to an older copy.
     * @throws Refused What is no delta (18 to 21, 27, 28), and a field of a row (1 to 4, 10 to
     *     12); a time after the limit (29); a delta for another site (15); an edit of this site
     *     that it lacks (30); two labels of one stamp (13).
     * @throws InvalidArgumentException A time below 0.
     */
    public function take(string $delta, int $notAfter = 0, bool $checkOwn = false): void
    {
        [$flags, $limit] = [$checkOwn ? Library::CHECK_OWN : 0, self::moment($notAfter)];
        $this->library->act('sw_site_take', $this->held, $flags, $delta, $limit);
    }

    /**
     * Joins what another site has, which stays as it is. The limit and the check are those of
     * `take`.
     *
     * @throws Refused A time after the limit (29); an edit of this site that it lacks (30); two
     *     labels of one stamp (13).
     * @throws InvalidArgumentException A time below 0.
     */
    public function merge(self $other, int $notAfter = 0, bool $checkOwn = false): void
    {
        [$flags, $limit] = [$checkOwn ? Library::CHECK_OWN : 0, self::moment($notAfter)];
        if ($other !== $this) {
            $this->library->act('sw_site_merge', $this->held, $flags, $other->held, $limit);
        }
    }

    /** A time from 0. (One below it would be a time far ahead, after which no edit comes.) */
    private static function moment(?int $time): int
    {
        if ($time < 0) {
            throw new InvalidArgumentException('a time counts from 0');
        }
        return $time ?? (int) (microtime(true) * 1000);
    }

    private static function json(array|string $maps): string
    {
        return is_string($maps) ? $maps : self::object($maps, fn ($labels) => is_array($labels)
            ? self::object($labels, fn ($label) => self::encoded($label)) : self::encoded($labels));
    }

    /**
     * An object of JSON. (Of an empty array `json_encode` makes a list, and it leaves out names
     * that begin with a zero byte.)
     */
    private static function object(array $members, callable $encoded): string
    {
        $made = [];
        foreach ($members as $name => $it) {
            $made[] = self::encoded((string) $name) . ':' . $encoded($it);
        }
        return '{' . implode(',', $made) . '}';
    }

    private static function encoded(mixed $value): string
    {
        return json_encode($value, JSON_UNESCAPED_UNICODE | JSON_THROW_ON_ERROR);
    }

    private function maps(string $call, string|int|CData ...$given): array
    {
        return json_decode($this->library->ask("sw_site_$call", $this->held, ...$given), true);
    }

    private static function cell(?array $row): ?array
    {
        return $row === null ? null : array_combine(['time', 'site', 'count', 'texts'], $row);
    }

    private static function whole(string $digits): int|string
    {
        return (string) (int) $digits === $digits ? (int) $digits : $digits;
    }
}
