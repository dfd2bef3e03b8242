<?php

declare(strict_types=1);

namespace Silkwaram;

/** Questions about language tags alone, without a site. Pass the options by their names. */
final class Tags
{
    /**
     * The one of some tags that a reader gets (RFC 4647 section 3.4).
     *
     * @param string|null $field What the Accept-Language header holds, several of them joined with
     *     commas. Null, if there is none, counts as `*`.
     * @param string[] $tags The tags there are.
     * @param string $default The tag for readers who get no other, if it is one of `$tags` and the
     *     field does not exclude it.
     * @param bool $lenient Skips malformed elements of the field.
     * @param bool $widen Lets a language find its regions, as `en` finds `en-US`. RFC 4647 does
     *     not.
     * @param bool $extended The field is a list of extended ranges without weights.
     * @param string $offer Which of the tags readers are offered, written as the field is. An empty
     *     one is all but those of private use.
     * @param string $fallbacks Which language is next to which, before its regions: a table as
     *     `zh-TW=zh-Hant, no=nb`. The default is not mapped.
     * @return string|null The tag as it is in `$tags`, or null if there is none.
     * @throws Refused The default (1 to 4); the offer, the fallbacks and the field, if they are
     *     malformed (9, and 31 of the fallbacks) or have over 65,535 bytes (8); the tags in their
     *     order (1 to 4).
     */
    public static function pick(
        ?string $field,
        array $tags,
        string $default = '',
        bool $lenient = false,
        bool $widen = false,
        bool $extended = false,
        string $offer = '*',
        string $fallbacks = ''
    ): ?string {
        $library = Library::loaded();
        $rules = $library->rules($offer, $fallbacks);
        $flags = Library::asked($lenient, $widen, $extended);
        $lines = self::lines($tags);
        return $library->find('sw_pick', $flags, $rules, $field ?? '*', $lines, $default);
    }

    /**
     * All tags that a reader accepts, best first (RFC 4647 section 3.3). The arguments are as
     * above.
     *
     * @param string[] $tags
     * @return list<array{tag: string, weight: int}> Each tag as it is in `$tags`, with its weight
     *     in thousandths. A tag that is there twice is answered twice.
     * @throws Refused The offer, then the field (each 8, 9), the tags in their order (1 to 4).
     */
    public static function filter(
        ?string $field,
        array $tags,
        bool $lenient = false,
        bool $extended = false,
        string $offer = '*'
    ): array {
        $library = Library::loaded();
        $flags = Library::asked($lenient, false, $extended);
        $given = [$flags, $library->rules($offer), $field ?? '*', self::lines($tags)];
        $lines = $library->ask('sw_filter', ...$given);
        $found = [];
        foreach (array_slice(explode("\n", $lines), 1, -1) as $line) {
            $end = strrpos($line, ' ');
            $found[] = ['tag' => substr($line, 0, $end), 'weight' => (int) substr($line, $end + 1)];
        }
        return $found;
    }

    /** @param string[] $tags */
    private static function lines(array $tags): string
    {
        // (an LF would make two tags of one: a zero byte is refused as the LF would be)
        return implode('', array_map(fn (string $tag) => strtr($tag, "\n", "\0") . "\n", $tags));
    }
}
