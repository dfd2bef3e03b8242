<?php

declare(strict_types=1);

namespace Silkwaram;

use FFI\CData;

/**
 * What a site is asked about one message. Pass the options by their names.
 *
 * Of all questions `$id` is the message, and `$field` what the Accept-Language header holds,
 * several of them joined with commas. Null, if there is none, counts as `*`. `$default` is the
 * language for readers who get no other. With `$lenient` malformed elements of the field are
 * skipped. With `$widen` a language finds its regions, as `en` finds `en-US`, which RFC 4647 does
 * not have. With `$extended` the field is a list of extended ranges without weights.
 *
 * `$offer` is what readers are offered of the site, written as an Accept-Language header: the
 * languages that filtering by it takes (RFC 4647 section 3.3.1), and labels without a language.
 * `en, fr` offers these and what they begin, `*` all. If it is empty, that is all languages but
 * those of private use, as `x-note`.
 *
 * `$fallbacks` is which language is next to which, before its regions: a table as
 * `zh-TW=zh-Hant, no=nb`. The default is not mapped.
 *
 * Refused are the id (10), the default (1 to 4), the offer, the fallbacks, and the field: what is
 * malformed (9, and 31 of the fallbacks), or has over 65,535 bytes (8).
 */
abstract class Questions
{
    /** How the names of the calls begin. */
    protected const CALLS = '';

    protected Library $library;
    /** What they ask: the handle of a site, or a document. */
    protected CData|string $held;

    /**
     * The label of a message that a reader gets (RFC 4647 section 3.4).
     *
     * @return array{language: string, texts: list<string>, isDefault: bool}|null Its language in
     *     lower case, its 1 to 64 texts, and whether it is that of the default; null if there is
     *     none.
     * @throws Refused
     */
    public function lookup(
        string $id,
        ?string $field,
        string $default = '',
        bool $lenient = false,
        bool $widen = false,
        bool $extended = false,
        string $offer = '',
        string $fallbacks = ''
    ): ?array {
        $flags = Library::asked($lenient, $widen, $extended);
        $rules = $this->library->rules($offer, $fallbacks);
        $line = $this->find('lookup', $rules, $flags, $id, $field ?? '*', $default);
        if ($line === null) {
            return null;
        }
        [$how, $language, $texts] = explode(' ', $line, 3);
        return [
            'language' => $language,
            'texts' => json_decode($texts),
            'isDefault' => $how === 'default',
        ];
    }

    /**
     * The texts of the label that `lookup` finds, or null.
     *
     * @return list<string>|null
     * @throws Refused
     */
    public function texts(
        string $id,
        ?string $field,
        string $default = '',
        bool $lenient = false,
        bool $widen = false,
        bool $extended = false,
        string $offer = '',
        string $fallbacks = ''
    ): ?array {
        $how = [$lenient, $widen, $extended, $offer, $fallbacks];
        return $this->lookup($id, $field, $default, ...$how)['texts'] ?? null;
    }

    /**
     * One text of that label, at `$place` from 0, as it is: it is no HTML. Null if there is none.
     *
     * @throws Refused
     */
    public function text(
        string $id,
        ?string $field,
        string $default = '',
        int $place = 0,
        bool $lenient = false,
        bool $widen = false,
        bool $extended = false,
        string $offer = '',
        string $fallbacks = ''
    ): ?string {
        $flags = Library::asked($lenient, $widen, $extended);
        $rules = $this->library->rules($offer, $fallbacks);
        return $this->find('text', $rules, $flags, $id, $field ?? '*', $default, $place);
    }

    /**
     * The labels of a message that a reader accepts, best first (RFC 4647 section 3.3).
     *
     * @return list<array{language: string, weight: int, texts: list<string>}> The weight is in
     *     thousandths.
     * @throws Refused
     */
    public function filter(
        string $id,
        ?string $field,
        bool $lenient = false,
        bool $extended = false,
        string $offer = ''
    ): array {
        $flags = Library::asked($lenient, false, $extended);
        $call = static::CALLS . 'filter';
        $rules = $this->library->rules($offer);
        $lines = $this->library->ask($call, $this->held, $rules, $flags, $id, $field ?? '*');
        $found = [];
        foreach (array_slice(explode("\n", $lines), 1, -1) as $line) {
            [$language, $weight, $texts] = explode(' ', $line, 3);
            $found[] = [
                'language' => $language,
                'weight' => (int) $weight,
                'texts' => json_decode($texts),
            ];
        }
        return $found;
    }

    private function find(string $call, CData $rules, string|int ...$given): ?string
    {
        return $this->library->find(static::CALLS . $call, $this->held, $rules, ...$given);
    }
}
